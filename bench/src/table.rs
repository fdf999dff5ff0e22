//! The benchmark: the proved engine, the plain one and a queue search on the same inputs, compared
//! first, then timed in turn. Writes Markdown tables.

use crate::proved;
use crate::timing::{batch_size, print_heading, repeat, time, Spread, ENGINES};
use hopbench::calls::{plain_search, Outcome, Query};
use hopbench::inputs::{file_of, finishing_schedule, layered_graph, Kind, Random, KINDS};
use hopbench::lists::{ample, Lists, DISTANCES};
use hopbench::plain::numbers::{DONE, SPENT};
use hopbench::queue;
use std::hint::black_box;
use std::time::Duration;

const SIZES: [(usize, usize); 3] = [(64, 512), (512, 4_096), (4_096, 32_768)];
const WORKERS: [usize; 3] = [1, 2, 8];
const SEED: u64 = 1;

/// How the engines take turns: each is called for at least so long before the other's turn comes,
/// and how often. In a long turn an engine's call follows its own, and the processor may have learnt
/// the schedule's branches; in a short one, of a call or a few, it follows another engine's.
pub struct Turns {
    pub shortest: Duration,
    pub repeats: usize,
}

pub const LONG_TURNS: Turns = Turns {
    shortest: Duration::from_millis(10),
    repeats: 15,
};
pub const SHORT_TURNS: Turns = Turns {
    shortest: Duration::from_micros(200),
    repeats: 101,
};

/// One row's input.
pub struct Input {
    n: usize,
    m: usize,
    workers: usize,
    kind: Kind,
    file: Vec<u8>,
    schedule: Vec<u8>,
}

impl Input {
    pub fn new(n: usize, m: usize, workers: usize, kind: Kind) -> Self {
        let mut random = Random::new(SEED);
        let rows = layered_graph(&mut random, n, m);
        let file = file_of(&mut random, &rows);
        let schedule = finishing_schedule(&mut random, kind, &file, 0, workers);
        Input {
            n,
            m,
            workers,
            kind,
            file,
            schedule,
        }
    }

    /// The input of n vertices among the table's sizes.
    pub fn of_size(n: usize, workers: usize, kind: Kind) -> Option<Self> {
        let &(n, m) = SIZES.iter().find(|size| size.0 == n)?;
        Some(Input::new(n, m, workers, kind))
    }

    fn name(&self) -> String {
        format!("n {}, P {}, {}", self.n, self.workers, self.kind.name())
    }

    pub fn events(&self) -> usize {
        self.schedule.len()
    }

    pub fn lists(&self) -> Lists {
        Lists::zeros(ample(self.n, self.m, self.workers))
    }

    /// The search itself.
    pub fn whole(&self) -> Query<'_> {
        self.query(&self.schedule)
    }

    /// Everything but the events: the same search with an empty schedule.
    pub fn set_up(&self) -> Query<'_> {
        self.query(&[])
    }

    fn query<'a>(&'a self, schedule: &'a [u8]) -> Query<'a> {
        Query {
            file: &self.file,
            source: 0,
            workers: self.workers,
            schedule,
        }
    }
}

fn queue_search(input: &Input, lists: &mut Lists, places: &mut [u16]) -> u32 {
    let parts = lists.parts();
    queue::search(&input.file, 0, parts.rows, parts.labels, places)
}

/// What both engines answer to a query, and what they leave; or where they differ.
fn agreed(query: &Query, input: &Input) -> Result<(Outcome, Lists), String> {
    let (mut ours, mut theirs) = (input.lists(), input.lists());
    let proved = proved::search(query, &mut ours);
    let plain = plain_search(query, &mut theirs);
    if proved != plain {
        return Err(format!("proved {proved:?}, plain {plain:?}"));
    }
    match ours.difference(&theirs) {
        Some(difference) => Err(format!("proved and plain: {difference}")),
        None => Ok((proved, ours)),
    }
}

/// Compares all three engines; the effective events, or what is wrong.
fn compare(input: &Input) -> Result<u32, String> {
    let (set_up, _) = agreed(&input.set_up(), input)?;
    let (whole, lists) = agreed(&input.whole(), input)?;
    if (set_up.number, whole.number) != (SPENT, DONE) {
        return Err(format!("set-up {set_up:?}, whole {whole:?}"));
    }
    let mut queued = input.lists();
    queue_search(input, &mut queued, &mut vec![0; input.n]);
    if queued.words[DISTANCES] != lists.words[DISTANCES] {
        return Err("the distances are not the queue search's".into());
    }
    Ok(whole.answer[2])
}

/// One repeat's nanoseconds per call: (proved, plain) each.
struct Repeat {
    whole: [f64; 2],
    set_up: [f64; 2],
    queue: f64,
}

fn measure(input: &Input, turns: &Turns) -> Vec<Repeat> {
    let shortest = turns.shortest;
    let mut lists = input.lists();
    let queries = [input.whole(), input.set_up()];
    let sizes = queries.map(|query| {
        ENGINES
            .map(|search| batch_size(shortest, |count| repeat(search, &query, &mut lists, count)))
    });
    let mut places = vec![0; input.n];
    let mut queued = |lists: &mut Lists, count| {
        for _ in 0..count {
            black_box(queue_search(input, lists, &mut places));
        }
    };
    let queue_size = batch_size(shortest, |count| queued(&mut lists, count));
    let one = |query: usize, engine: usize, lists: &mut Lists| {
        let size = sizes[query][engine];
        time(size, |count| {
            repeat(ENGINES[engine], &queries[query], lists, count)
        })
    };
    (0..turns.repeats)
        .map(|_| Repeat {
            whole: [0, 1].map(|engine| one(0, engine, &mut lists)),
            set_up: [0, 1].map(|engine| one(1, engine, &mut lists)),
            queue: time(queue_size, |count| queued(&mut lists, count)),
        })
        .collect()
}

/// A row's times.
struct Row {
    input: Input,
    effective: u32,
    repeats: Vec<Repeat>,
}

impl Row {
    fn new(input: Input, turns: &Turns) -> Result<Self, String> {
        let effective = compare(&input).map_err(|what| format!("{}: {what}", input.name()))?;
        let repeats = measure(&input, turns);
        Ok(Row {
            input,
            effective,
            repeats,
        })
    }

    fn over(&self, value: impl Fn(&Repeat) -> f64) -> Spread {
        Spread::new(self.repeats.iter().map(value))
    }

    /// Nanoseconds per event of one engine: the whole call without the set-up.
    fn per_event(&self, engine: usize) -> f64 {
        let events = self.input.events() as f64;
        self.over(|times| (times.whole[engine] - times.set_up[engine]) / events)
            .median
    }

    fn events_ratio(&self) -> Spread {
        self.over(|times| (times.whole[0] - times.set_up[0]) / (times.whole[1] - times.set_up[1]))
    }

    fn print(&self) {
        let Input {
            n,
            m,
            workers,
            kind,
            ..
        } = self.input;
        let micros = |engine: usize| self.over(|times| times.set_up[engine] / 1e3).median;
        println!(
            "| {n} | {m} | {workers} | {} | {} | {} | {:.2} | {:.2} | {} | {:.2} | {:.2} | {} | {} | {:.2} | {} |",
            kind.name(),
            self.input.events(),
            self.effective,
            micros(0),
            micros(1),
            self.over(|times| times.set_up[0] / times.set_up[1]).ratio(),
            self.per_event(0),
            self.per_event(1),
            self.events_ratio().ratio(),
            self.over(|times| times.whole[0] / times.whole[1]).ratio(),
            self.over(|times| times.queue / 1e3).median,
            self.over(|times| times.whole[0] / times.queue).ratio(),
        );
    }
}

const CAPTION: &str = "\
Set-up is the same search with an empty schedule; events are the whole call less its set-up, for each \
event used, with the form check's look-ups. Ratios are proved / plain; the queue search reads the same \
file and needs no schedule.";

const HEADINGS: [&str; 15] = [
    "n",
    "m",
    "P",
    "schedule",
    "events",
    "effective",
    "set-up proved µs",
    "set-up plain µs",
    "set-up ratio",
    "proved ns/event",
    "plain ns/event",
    "events ratio",
    "whole ratio",
    "queue µs",
    "proved / queue",
];

/// The rows of the large table, in its order.
fn inputs() -> impl Iterator<Item = Input> {
    SIZES.into_iter().flat_map(|(n, m)| {
        WORKERS.into_iter().flat_map(move |workers| {
            KINDS
                .into_iter()
                .map(move |kind| Input::new(n, m, workers, kind))
        })
    })
}

/// The benchmark with such turns. An error says where the engines differ.
pub fn table(turns: &Turns) -> Result<(), String> {
    let Turns { shortest, repeats } = turns;
    println!("Turns of at least {shortest:?}. {CAPTION} Times are medians of {repeats} repeats; ratios too, with what one in ten is below and above.\n");
    print_heading(&HEADINGS.map(String::from));
    let mut rows = Vec::new();
    for input in inputs() {
        let row = Row::new(input, turns)?;
        row.print();
        rows.push(row);
    }
    println!("\nNanoseconds per event, over n:\n");
    let sizes = |engine: &'static str| SIZES.map(|(n, _)| format!("{engine}, n {n}"));
    let mut headings = vec!["P".to_string(), "schedule".to_string()];
    headings.extend(sizes("proved"));
    headings.extend(sizes("plain"));
    print_heading(&headings);
    for workers in WORKERS {
        KINDS
            .iter()
            .for_each(|&kind| print_costs(&rows, workers, kind));
    }
    Ok(())
}

/// A line of the small table.
fn print_costs(rows: &[Row], workers: usize, kind: Kind) {
    let alike = |row: &&Row| row.input.workers == workers && row.input.kind == kind;
    print!("| {workers} | {} |", kind.name());
    for engine in [0, 1] {
        for row in rows.iter().filter(alike) {
            print!(" {:.2} |", row.per_event(engine));
        }
    }
    println!();
}
