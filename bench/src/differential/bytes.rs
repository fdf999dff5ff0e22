//! Event bytes, one by one: each of the 256 with every P, each well-formed one where it is effective, and
//! stray ones in schedules that are played without them.

use super::tally::Tally;
use super::{demand, schedules, side_by_side};
use hopbench::calls::{Call, Query};
use hopbench::inputs::{bytes_of, event_bytes, file_of, Random, Rows};
use hopbench::lists::{ample, Lists};
use hopbench::plain::numbers::{DONE, MOST_WORKERS, SCHEDULE, SPENT, WORKERS};

/// Every byte as a whole schedule, for every P from 0 to 9. One event finishes no search.
pub fn each_alone(tally: &mut Tally) -> Result<(), String> {
    let file = bytes_of(&[1, 0, 0]);
    let mut lists = Lists::filled(ample(1, 0, MOST_WORKERS + 1), || 77);
    for workers in 0..=MOST_WORKERS + 1 {
        let known = event_bytes(workers);
        for byte in 0..=u8::MAX {
            let query = Query {
                file: &file,
                source: 0,
                workers,
                schedule: &[byte],
            };
            let number = match workers {
                1..=MOST_WORKERS if known.contains(&byte) => SPENT,
                1..=MOST_WORKERS => SCHEDULE,
                _ => WORKERS,
            };
            let outcome = side_by_side(Call::Search, &query, &mut lists, tally)?;
            demand(outcome.number == number, || {
                format!("byte {byte}, P {workers}: {outcome:?}, not {number}")
            })?;
        }
    }
    Ok(())
}

/// The children of the root in `web`, and how many of them each of eight workers gets.
const CHILDREN: usize = 16;
const SHARE: usize = CHILDREN / MOST_WORKERS;

/// The moves of a worker that takes a vertex with one edge, to a vertex that is unset.
const MOVES: usize = 5;

/// Enough full rounds for the web.
const ROUNDS: usize = 1_000;

/// A root, its children, below each child one vertex, and below every two of those one that both lead
/// to. So parents tell in which order the vertices of a layer were taken.
fn web() -> Rows {
    let mut rows: Rows = vec![Vec::new(); 1 + 2 * CHILDREN];
    for child in 1..=CHILDREN {
        rows[0].push(child as u16);
        rows[child].push((child + CHILDREN) as u16);
    }
    for below in CHILDREN + 1..=2 * CHILDREN {
        for other in CHILDREN + 1..below {
            let shared = rows.len() as u16;
            rows[below].push(shared);
            rows[other].push(shared);
            rows.push(Vec::new());
        }
    }
    rows
}

/// Events of eight workers in the web, behind which the byte is effective. They part the children among
/// them. Then, for work, all are done but one, which has one move left; for a split one of them is done;
/// for a unite each is done with one child; for a close all are done.
fn ahead_of(byte: u8) -> Vec<u8> {
    let named = usize::from(byte / 8 % 8);
    let moves = |w: usize| match byte {
        0..64 => MOVES * SHARE - usize::from(w == named),
        64..128 => MOVES * SHARE * usize::from(w == named),
        128..192 => MOVES,
        _ => MOVES * SHARE,
    };
    let mut schedule = vec![0; 1 + 4 * CHILDREN];
    schedule.push(192);
    let halves = [(4, 0), (2, 0), (6, 4), (1, 0), (3, 2), (5, 4), (7, 6)];
    schedule.extend(halves.map(|(w, v)| 64 + 8 * w + v));
    schedule.extend((0..MOST_WORKERS).flat_map(|w| vec![8 * w as u8; moves(w)]));
    schedule
}

/// Every well-formed byte where it is effective; behind it a close, which tells whether all are done,
/// and full rounds up to the end of the search.
pub fn each_effective(tally: &mut Tally) -> Result<(), String> {
    let rows = web();
    let (n, m) = (rows.len(), rows.iter().map(Vec::len).sum());
    let file = file_of(&mut Random::new(0), &rows);
    let mut lists = Lists::filled(ample(n, m, MOST_WORKERS), || 77);
    let mut play = |schedule: &[u8]| {
        let query = Query {
            file: &file,
            source: 0,
            workers: MOST_WORKERS,
            schedule,
        };
        side_by_side(Call::Search, &query, &mut lists, tally)
    };
    for byte in event_bytes(MOST_WORKERS) {
        let mut schedule = ahead_of(byte);
        let before = play(&schedule)?;
        schedule.push(byte);
        let after = play(&schedule)?;
        demand(after.answer[2] == before.answer[2] + 1, || {
            format!("byte {byte} is not effective: {before:?}, then {after:?}")
        })?;
        schedule.push(192);
        schedule.extend(schedules::rounds(MOST_WORKERS, ROUNDS * (MOST_WORKERS + 1)));
        let whole = play(&schedule)?;
        demand(whole.number == DONE, || {
            format!("byte {byte} and rounds behind it: {whole:?}")
        })?;
    }
    Ok(())
}

/// How many stray bytes a schedule is tried with, one at a time.
const STRAYS: usize = 3;

/// A search that was played, with one byte more that its P workers can't have: it is refused, wherever
/// the byte stands.
pub fn with_strays(
    random: &mut Random,
    query: &Query,
    lists: &mut Lists,
    tally: &mut Tally,
) -> Result<(), String> {
    for _ in 0..STRAYS {
        let mut schedule = query.schedule.to_vec();
        let stray = schedules::stray(random, query.workers);
        let place = random.below(schedule.len() + 1);
        schedule.insert(place, stray);
        let spoilt = Query {
            schedule: &schedule,
            ..*query
        };
        let outcome = side_by_side(Call::Search, &spoilt, lists, tally)?;
        demand(outcome.number == SCHEDULE, || {
            let workers = query.workers;
            format!("byte {stray} at place {place}, P {workers}: {outcome:?}")
        })?;
        tally.refused(stray);
    }
    Ok(())
}
