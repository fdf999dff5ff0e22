//! The random cases: a call, its input, and lists at their need, longer or shorter, full of junk.

use super::files::{accepted, damage, random_sizes};
use super::{bytes_need, labels, lent, schedules};
use hopbench::calls::{Call, CALLS};
use hopbench::inputs::Random;
use hopbench::lists::{needs, Lists, DISTANCES, LISTS, OFFSETS, PARENTS, TARGETS};
use hopbench::plain::numbers::{MOST_EDGES, MOST_VERTICES, MOST_WORKERS};

/// A call with its input.
pub struct Trial {
    pub call: Call,
    pub file: Vec<u8>,
    pub source: usize,
    pub workers: usize,
    pub schedule: Vec<u8>,
    pub lists: Lists,
    /// The list that is one short, if that is the only one that is short.
    pub short: Option<usize>,
}

/// How long the lists are.
#[derive(Clone, Copy, Debug)]
pub enum Lengths {
    Random,
    /// Each at its need.
    Exact,
    /// Each at its need, but this one is one short.
    OneShort(usize),
}

/// What is settled of a case before the rest is drawn.
#[derive(Clone, Copy, Debug)]
pub struct Plan {
    pub call: Call,
    pub n: usize,
    pub m: usize,
    pub lengths: Lengths,
    /// Whether file, source, workers, schedule, result and rows may be bad.
    pub spoilt: bool,
}

/// A plan of any kind.
pub fn random_plan(random: &mut Random) -> Plan {
    let (n, m) = random_sizes(random);
    Plan {
        call: random.pick(&CALLS),
        n,
        m,
        lengths: Lengths::Random,
        spoilt: true,
    }
}

/// The edges of the sizes: for each call all lists at their need, and each of them one short.
pub fn edge_plans() -> Vec<Plan> {
    let sizes = [
        (1, 0),
        (1, MOST_EDGES),
        (50, 0),
        (51, 200),
        (MOST_VERTICES, 0),
        (MOST_VERTICES, MOST_EDGES),
        (MOST_VERTICES + 1, 10),
        (10, MOST_EDGES + 1),
    ];
    let mut plans = Vec::new();
    for (n, m) in sizes {
        for call in CALLS {
            let short = lent(call).into_iter().map(Lengths::OneShort);
            plans.extend(short.chain([Lengths::Exact]).map(|lengths| Plan {
                call,
                n,
                m,
                lengths,
                spoilt: false,
            }));
        }
    }
    plans
}

pub fn trial(random: &mut Random, plan: Plan) -> Trial {
    match plan.call {
        Call::Write => write_trial(random, plan),
        _ => file_trial(random, plan),
    }
}

/// A case of a call that takes a file.
fn file_trial(random: &mut Random, plan: Plan) -> Trial {
    let Plan {
        call, n, m, spoilt, ..
    } = plan;
    let mut made = accepted(random, n, m);
    let damaged = spoilt && random.percent(25);
    let (source, workers) = if spoilt {
        (random_source(random, n), random_workers(random))
    } else {
        (random.below(n), random.between(1, MOST_WORKERS))
    };
    let (start, crew) = (source.min(n - 1), workers.clamp(1, MOST_WORKERS));
    let (lengths, short) = lengths_of(random, plan, crew);
    let mut lists = junk(random, lengths);
    let mut schedule = Vec::new();
    if call == Call::Search {
        let sound = made.fits() && !damaged;
        schedule = schedules::random_schedule(random, &made, sound, start, crew);
        if spoilt && random.percent(12) {
            schedules::spoil(random, &mut schedule, crew);
        }
    } else if call != Call::Read && made.fits() {
        let result = if spoilt {
            labels::random_result(random, &made, start)
        } else {
            labels::right(&made.bytes, start)
        };
        lend_result(result, &mut lists);
    }
    if damaged {
        damage(random, &mut made);
    }
    Trial {
        call,
        file: made.bytes,
        source,
        workers,
        schedule,
        lists,
        short,
    }
}

/// Puts a result into distances and parents, as far as they go.
fn lend_result(result: labels::Labelling, lists: &mut Lists) {
    for (list, labels) in [(DISTANCES, result.distances), (PARENTS, result.parents)] {
        for (place, label) in lists.words[list].iter_mut().zip(labels) {
            *place = label;
        }
    }
}

/// A source, mostly one that is there.
fn random_source(random: &mut Random, n: usize) -> usize {
    match random.below(20) {
        0 => random.pick(&[n, n + 1, 65_535, 65_536, usize::MAX]),
        1 | 2 => n - 1,
        _ => random.below(n),
    }
}

/// A number of workers, mostly one from 1 to 8.
fn random_workers(random: &mut Random) -> usize {
    match random.below(20) {
        0 => random.pick(&[0, 9, 10, 256, 257, 65_537, usize::MAX]),
        _ => random.between(1, 8),
    }
}

fn junk(random: &mut Random, lengths: [usize; LISTS]) -> Lists {
    Lists::filled(lengths, || random.draw() as u16)
}

/// The lists' lengths, and which list is one short alone.
fn lengths_of(random: &mut Random, plan: Plan, workers: usize) -> ([usize; LISTS], Option<usize>) {
    let Plan { call, n, m, .. } = plan;
    let mut needs = needs(n, m, workers, bytes_need(call, n, m));
    match plan.lengths {
        Lengths::Random => random_lengths(random, call, needs),
        Lengths::OneShort(list) if needs[list] > 0 => {
            needs[list] -= 1;
            (needs, Some(list))
        }
        _ => (needs, None),
    }
}

/// At their need or longer; one of them one short, or some of them short in other ways.
fn random_lengths(
    random: &mut Random,
    call: Call,
    needs: [usize; LISTS],
) -> ([usize; LISTS], Option<usize>) {
    let longer = random.percent(50);
    let mut lengths = needs.map(|need| need + if longer { random.below(4) } else { 0 });
    let own = lent(call);
    let chosen = random.pick(&own);
    match random.below(20) {
        0..5 if needs[chosen] > 0 => {
            lengths[chosen] = needs[chosen] - 1;
            return (lengths, Some(chosen));
        }
        5 => lengths[chosen] = 0,
        6 => own
            .iter()
            .for_each(|&list| lengths[list] = needs[list].saturating_sub(1)),
        7 => lengths = [0; LISTS],
        8 => own
            .iter()
            .for_each(|&list| lengths[list] = random.below(needs[list] + 2)),
        _ => (),
    }
    (lengths, None)
}

/// A case of the writer: rows that are right, or malformed in one way.
fn write_trial(random: &mut Random, plan: Plan) -> Trial {
    let Plan { call, n, m, .. } = plan;
    let (lengths, short) = lengths_of(random, plan, 1);
    let mut lists = junk(random, lengths);
    lists.words[OFFSETS] = random_offsets(random, n, m);
    lists.words[TARGETS] = (0..m).map(|_| random.below(n) as u16).collect();
    if plan.spoilt && random.percent(40) {
        spoil_rows(random, n, &mut lists);
    }
    Trial {
        call,
        file: Vec::new(),
        source: 0,
        workers: 0,
        schedule: Vec::new(),
        lists,
        short,
    }
}

/// n + 1 offsets that rise from 0 to m.
fn random_offsets(random: &mut Random, n: usize, m: usize) -> Vec<u16> {
    let mut offsets: Vec<u16> = (1..n).map(|_| random.below(m + 1) as u16).collect();
    offsets.extend([0, m as u16]);
    offsets.sort_unstable();
    offsets
}

/// Rows malformed: in length, at an end, falling, or with a target that is no vertex.
fn spoil_rows(random: &mut Random, n: usize, lists: &mut Lists) {
    let [offsets, targets, ..] = &mut lists.words;
    let place = random.below(offsets.len());
    match random.below(10) {
        0 => offsets.clear(),
        1 => offsets.truncate(1),
        2 => offsets[0] = random.pick(&[1, 2, 65_535]),
        3 => offsets[n] = offsets[n].wrapping_add(random.pick(&[1, 65_535])),
        4 => offsets[place] = random.pick(&[0, 1, 65_535]),
        5 => targets.push(0),
        6 => targets.truncate(targets.len().saturating_sub(1)),
        7 if targets.is_empty() && random.percent(5) => targets.resize(65_536, 0),
        8 => offsets.swap(place, n),
        _ => spoil_target(random, n, targets),
    }
}

fn spoil_target(random: &mut Random, n: usize, targets: &mut [u16]) {
    if !targets.is_empty() {
        let place = random.below(targets.len());
        targets[place] = random.pick(&[n as u16, n as u16 + 1, 65_535]);
    }
}
