//! The differential test: the proved library through its C interface beside the plain one. Random
//! cases of every call, with good and damaged inputs; number, answer and every place of every list
//! must agree, and the census with a recount of the distances, in short schedules after each event.
//! Every number, every list that is too short, every event byte and a vertex that two workers mark must
//! have come up.

mod bytes;
mod cases;
mod files;
mod labels;
mod schedules;
mod tally;

use crate::proved::Proved;
use cases::{Plan, Trial};
use hopbench::calls::{Call, Library, Outcome, Plain, Query};
use hopbench::cases::bench_cases;
use hopbench::inputs::Random;
use hopbench::lists::{
    ample, Lists, BYTES, DISTANCES, HISTOGRAM, MARKS, OFFSETS, PARENTS, TARGETS,
};
use hopbench::plain::file::file_length;
use hopbench::plain::numbers::{DONE, MOST_EVENTS, SCHEDULE, SHORT, SPENT, UNSET};
use hopbench::plain::page::page_length;
use hopbench::queue::recount;
use tally::Tally;

/// The longest schedule that is also played event by event.
const FEW_EVENTS: usize = 2_000;

/// Calls both libraries with equal lists. Leaves what they left, or says where they differ or what is
/// wrong with the census.
fn agreed(call: Call, query: &Query, lists: &mut Lists) -> Result<Outcome, String> {
    let mut theirs = lists.clone();
    let mut census = lists.words[HISTOGRAM].clone();
    let proved = Proved.call(call, query, lists);
    let plain = Plain.call(call, query, &mut theirs);
    let differ = |what: String| Err(format!("{}: proved and plain differ: {what}", call.name()));
    if proved != plain {
        return differ(format!("{proved:?} and {plain:?}"));
    }
    if let Some(difference) = lists.difference(&theirs) {
        return differ(format!("number {}, {difference}", proved.number));
    }
    if let (Call::Search, DONE | SPENT) = (call, proved.number) {
        let (n, _) = files::sizes(query.file);
        census[..n].copy_from_slice(&recount(&lists.words[DISTANCES][..n]));
    }
    let left = &lists.words[HISTOGRAM];
    demand(*left == census, || {
        let number = proved.number;
        format!(
            "{}: number {number}, census {left:?}, not {census:?}",
            call.name()
        )
    })?;
    Ok(proved)
}

/// The same, and counts the number.
fn side_by_side(
    call: Call,
    query: &Query,
    lists: &mut Lists,
    tally: &mut Tally,
) -> Result<Outcome, String> {
    let outcome = agreed(call, query, lists)?;
    tally.count(call, outcome.number);
    Ok(outcome)
}

/// An error unless this holds.
fn demand(holds: bool, what: impl FnOnce() -> String) -> Result<(), String> {
    if holds {
        Ok(())
    } else {
        Err(what())
    }
}

/// Document 01's cases A to I, by both libraries.
fn bench(tally: &mut Tally) -> Result<(), String> {
    for case in bench_cases() {
        let mut lists = Lists::filled(ample(4, 4, 9), || 77);
        let outcome = side_by_side(Call::Search, &case.query(), &mut lists, tally)?;
        demand(!case.wrong(outcome.answer, &lists), || {
            let left = [DISTANCES, PARENTS, HISTOGRAM].map(|list| &lists.words[list]);
            format!("case {}: {outcome:?}, {left:?}", case.name)
        })?;
    }
    Ok(())
}

/// Schedules of the greatest length and one above it.
fn longest(seed: u64, tally: &mut Tally) -> Result<(), String> {
    let mut random = Random::new(seed);
    for workers in [1, 3, 8] {
        let file = files::accepted(&mut random, 6, 12).bytes;
        let mut lists = Lists::filled(ample(6, 12, workers), || 77);
        let finishing = schedules::rounds(workers, MOST_EVENTS);
        let mut stray_last = finishing.clone();
        stray_last[MOST_EVENTS - 1] = 255;
        for (schedule, number) in [
            (vec![0; MOST_EVENTS], SPENT),
            (vec![0; MOST_EVENTS + 1], SCHEDULE),
            (finishing, DONE),
            (stray_last, SCHEDULE),
        ] {
            let query = Query {
                file: &file,
                source: 0,
                workers,
                schedule: &schedule,
            };
            let outcome = side_by_side(Call::Search, &query, &mut lists, tally)?;
            demand(outcome.number == number, || {
                format!("{} events: {outcome:?}, not {number}", schedule.len())
            })?;
        }
    }
    Ok(())
}

/// The edges of the sizes.
fn edges(seed: u64, tally: &mut Tally) -> Result<(), String> {
    let mut random = Random::new(seed);
    for plan in cases::edge_plans() {
        trial(&mut random, plan, tally).map_err(|what| format!("{what}\nseed {seed}, {plan:?}"))?;
    }
    Ok(())
}

/// One case and what follows from its outcome.
fn trial(random: &mut Random, plan: Plan, tally: &mut Tally) -> Result<(), String> {
    let Trial {
        call,
        file,
        source,
        workers,
        schedule,
        mut lists,
        short,
    } = cases::trial(random, plan);
    let query = Query {
        file: &file,
        source,
        workers,
        schedule: &schedule,
    };
    let outcome = side_by_side(call, &query, &mut lists, tally)?;
    if let (Some(list), SHORT) = (short, outcome.number) {
        tally.short_alone(call, list);
    }
    match (call, outcome.number) {
        (Call::Search, DONE | SPENT) => {
            tally.played(query.schedule);
            bytes::with_strays(random, &query, &mut lists, tally)?;
            searched(&query, outcome, lists, tally)
        }
        (Call::Read, DONE) => reread(outcome, lists, tally),
        (Call::Write, DONE) => written(lists, tally),
        _ => Ok(()),
    }
}

/// A search after each of its events, in lists that a search has left, and leaves so again. A parent
/// that changes is the work of two workers: both had marked the vertex before they named it, and only
/// the first of the two marks found it unset.
fn event_by_event(query: &Query, lists: &mut Lists, tally: &mut Tally) -> Result<(), String> {
    let mut parents = vec![UNSET; lists.words[PARENTS].len()];
    let mut marked_twice = false;
    for events in 0..=query.schedule.len() {
        let so_far = Query {
            schedule: &query.schedule[..events],
            ..*query
        };
        agreed(Call::Search, &so_far, lists)
            .map_err(|what| format!("after {events} events: {what}"))?;
        let mut pairs = parents.iter().zip(&lists.words[PARENTS]);
        marked_twice |= pairs.any(|(before, after)| *before != UNSET && before != after);
        parents.clone_from(&lists.words[PARENTS]);
    }
    tally.event_by_event(marked_twice);
    Ok(())
}

/// A played search against the queue search, and event by event where it is short; a finished one is
/// checked and laid out too.
fn searched(
    query: &Query,
    outcome: Outcome,
    mut lists: Lists,
    tally: &mut Tally,
) -> Result<(), String> {
    if query.schedule.len() <= FEW_EVENTS {
        event_by_event(query, &mut lists, tally)?;
    }
    let [_, used, effective, layer] = outcome.answer.map(|value| value as usize);
    let (n, m) = files::sizes(query.file);
    let found = labels::right(query.file, query.source);
    let set = |distance: &u16| *distance != UNSET;
    let mut pairs = lists.words[DISTANCES].iter().zip(&found.distances);
    let bound = query.workers * (6 * n + m) + n;
    demand(effective <= used.min(bound), || {
        format!("{effective} effective events")
    })?;
    if outcome.number == SPENT {
        demand(used == query.schedule.len(), || {
            format!("spent: {used} used")
        })?;
        return demand(
            pairs.all(|(ours, right)| !set(ours) || ours == right),
            || "spent: a distance is not the queue search's".into(),
        );
    }
    demand(pairs.all(|(ours, right)| ours == right), || {
        "finished: a distance is not the queue search's".into()
    })?;
    let far = found.distances.iter().copied().filter(set).max();
    demand(far.map(usize::from) == Some(layer), || {
        format!("finished: layer {layer}")
    })?;
    let checked = side_by_side(Call::Check, query, &mut lists, tally)?;
    demand(checked.number == DONE, || {
        format!("a finished search is judged {checked:?}")
    })?;
    let pages = if lists.bytes.len() < page_length(n) {
        SHORT
    } else {
        DONE
    };
    let laid_out = side_by_side(Call::Page, query, &mut lists, tally)?;
    demand(laid_out.number == pages, || {
        format!("a finished search's pages: {laid_out:?}")
    })
}

/// Rows that were read are written, and read back as they are.
fn reread(outcome: Outcome, mut lists: Lists, tally: &mut Tally) -> Result<(), String> {
    let [_, n, m, _] = outcome.answer.map(|value| value as usize);
    lists.words[OFFSETS].truncate(n + 1);
    lists.words[TARGETS].truncate(m);
    lists.bytes = vec![7; file_length(n, m) + 2];
    let nothing = Query {
        file: &[],
        source: 0,
        workers: 0,
        schedule: &[],
    };
    let wrote = side_by_side(Call::Write, &nothing, &mut lists, tally)?;
    demand(wrote.number == DONE, || {
        format!("rows that were read are written: {wrote:?}")
    })?;
    written(lists, tally)
}

/// A file that was written gives its rows.
fn written(lists: Lists, tally: &mut Tally) -> Result<(), String> {
    let (n, m) = (lists.words[OFFSETS].len() - 1, lists.words[TARGETS].len());
    let query = Query {
        file: &lists.bytes[..file_length(n, m)],
        source: 0,
        workers: 0,
        schedule: &[],
    };
    let mut back = Lists::filled(ample(n, m, 0), || 77);
    let outcome = side_by_side(Call::Read, &query, &mut back, tally)?;
    let same = |list: usize| back.words[list] == lists.words[list];
    demand(
        outcome.answer == [0, n as u32, m as u32, 0] && same(OFFSETS) && same(TARGETS),
        || format!("written rows are read back: {outcome:?}"),
    )
}

/// Cases `first` to `first + count - 1` of a seed. From 0 on the fixed cases come before them, and
/// every number, every short list, every byte and a vertex marked twice are demanded.
pub fn differential(count: u64, seed: u64, first: Option<u64>) -> Result<(), String> {
    println!("differential test: {count} cases, seed {seed}");
    let mut tally = Tally::default();
    if first.is_none() {
        bench(&mut tally)?;
        bytes::each_alone(&mut tally)?;
        bytes::each_effective(&mut tally)?;
        longest(seed, &mut tally)?;
        edges(seed, &mut tally)?;
    }
    let start = first.unwrap_or(0);
    for case in start..start + count {
        let mut random = Random::new(seed.rotate_left(32) ^ case);
        let plan = cases::random_plan(&mut random);
        trial(&mut random, plan, &mut tally).map_err(|what| {
            format!(
                "{what}\nseed {seed}, case {case}; again: hopbench differential 1 {seed} {case}"
            )
        })?;
    }
    tally.print();
    if first.is_none() {
        tally.complete()?;
    }
    println!("no difference");
    Ok(())
}

/// The bytes that a call with a list of bytes needs.
fn bytes_need(call: Call, n: usize, m: usize) -> usize {
    match call {
        Call::Write => file_length(n, m),
        _ => page_length(n),
    }
}

/// The lists that a call takes under number 20.
fn lent(call: Call) -> Vec<usize> {
    match call {
        Call::Read => (OFFSETS..=MARKS).collect(),
        Call::Write => vec![BYTES],
        Call::Search => (OFFSETS..BYTES).collect(),
        Call::Check => (OFFSETS..=PARENTS).collect(),
        Call::Page => (OFFSETS..=PARENTS).chain([BYTES]).collect(),
    }
}
