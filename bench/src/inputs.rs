//! Inputs made from a seed: random numbers, graphs, hearing files and schedules.

use crate::calls::{search_untold, Query};
use crate::lists::{ample, Lists};
use crate::plain::numbers::{DONE, MOST_EVENTS};

/// The splitmix64 generator.
pub struct Random {
    state: u64,
}

impl Random {
    pub fn new(seed: u64) -> Self {
        Random { state: seed }
    }

    pub fn draw(&mut self) -> u64 {
        self.state = self.state.wrapping_add(0x9E37_79B9_7F4A_7C15);
        let mut z = self.state;
        z = (z ^ (z >> 30)).wrapping_mul(0xBF58_476D_1CE4_E5B9);
        z = (z ^ (z >> 27)).wrapping_mul(0x94D0_49BB_1331_11EB);
        z ^ (z >> 31)
    }

    /// A number below `bound`, which is not 0.
    pub fn below(&mut self, bound: usize) -> usize {
        (self.draw() % bound as u64) as usize
    }

    /// A number from `low` to `high`, both included.
    pub fn between(&mut self, low: usize, high: usize) -> usize {
        low + self.below(high - low + 1)
    }

    /// True `parts` times in a hundred.
    pub fn percent(&mut self, parts: usize) -> bool {
        self.below(100) < parts
    }

    pub fn pick<T: Copy>(&mut self, from: &[T]) -> T {
        from[self.below(from.len())]
    }

    pub fn shuffle<T>(&mut self, list: &mut [T]) {
        for last in (1..list.len()).rev() {
            list.swap(last, self.below(last + 1));
        }
    }
}

/// A row of targets for each vertex.
pub type Rows = Vec<Vec<u16>>;

/// A graph with several layers: a ring, so that all is reached, edges to near neighbours, and a few
/// long ones. It has m edges, n at least.
pub fn layered_graph(random: &mut Random, n: usize, m: usize) -> Rows {
    let mut rows: Rows = (0..n).map(|v| vec![((v + 1) % n) as u16]).collect();
    for _ in n..m {
        let start = random.below(n);
        let target = if random.below(64) == 0 {
            random.below(n)
        } else {
            (start + n + random.below(17) - 8) % n
        };
        rows[start].push(target as u16);
    }
    rows.iter_mut().for_each(|row| random.shuffle(row));
    rows
}

/// A graph of m edges between any vertices, to oneself and repeated ones too.
pub fn random_graph(random: &mut Random, n: usize, m: usize) -> Rows {
    let mut rows: Rows = vec![Vec::new(); n];
    for _ in 0..m {
        let start = random.below(n);
        rows[start].push(random.below(n) as u16);
    }
    rows
}

/// The hearing file of these rows, its records numbered at random.
pub fn file_of(random: &mut Random, rows: &Rows) -> Vec<u8> {
    let m = rows.iter().map(Vec::len).sum();
    let mut free: Vec<u16> = (1..=m).map(|index| index as u16).collect();
    random.shuffle(&mut free);
    let mut words = vec![rows.len() as u16, m as u16];
    let mut records = vec![0; 2 * m];
    for row in rows {
        let mut after = 0;
        for &target in row.iter().rev() {
            let index = free.pop().expect("a record for each edge");
            let at = 2 * (usize::from(index) - 1);
            records[at..at + 2].copy_from_slice(&[target, after]);
            after = index;
        }
        words.push(after);
    }
    words.extend(records);
    bytes_of(&words)
}

/// Words as bytes, low byte first.
pub fn bytes_of(words: &[u16]) -> Vec<u8> {
    words.iter().flat_map(|word| word.to_le_bytes()).collect()
}

/// The bytes that a schedule of P workers may have (docs/SPECIFICATION.md, §5.2), each made as
/// 64 × kind + 8 × w + v.
pub fn event_bytes(workers: usize) -> Vec<u8> {
    let works = (0..workers).map(|w| 8 * w);
    let others = move |w: usize| (0..workers).filter(move |&v| v != w);
    let pairs = (0..workers).flat_map(move |w| others(w).map(move |v| 8 * w + v));
    let splits = pairs.clone().map(|pair| 64 + pair);
    let unites = pairs.map(|pair| 128 + pair);
    let bytes = works.chain(splits).chain(unites).chain([192]);
    bytes.map(|byte| byte as u8).collect()
}

/// The kinds of schedule.
#[derive(Clone, Copy, Debug, PartialEq, Eq)]
pub enum Kind {
    Rounds,
    Random,
    Shared,
}

/// The kinds that are measured.
pub const KINDS: [Kind; 2] = [Kind::Rounds, Kind::Random];

/// The kinds that tests draw from.
pub const ALL_KINDS: [Kind; 3] = [Kind::Rounds, Kind::Random, Kind::Shared];

impl Kind {
    pub fn name(self) -> &'static str {
        match self {
            Kind::Rounds => "rounds",
            Kind::Random => "random",
            Kind::Shared => "shared",
        }
    }
}

/// The event at a place of a schedule of this kind.
pub fn event(random: &mut Random, kind: Kind, workers: usize, place: usize) -> u8 {
    match kind {
        Kind::Rounds => round_event(workers, place),
        Kind::Random => random_event(random, workers),
        Kind::Shared => shared_event(random, workers, place),
    }
}

/// Full rounds: work by each worker, then close.
fn round_event(workers: usize, place: usize) -> u8 {
    let w = place % (workers + 1);
    if w < workers {
        8 * w as u8
    } else {
        192
    }
}

/// A worker besides w, if there are two.
fn other(random: &mut Random, w: usize, workers: usize) -> usize {
    (w + random.between(1, workers.max(2) - 1)) % workers
}

/// Mostly work, some splits, unites and closes.
fn random_event(random: &mut Random, workers: usize) -> u8 {
    let w = random.below(workers);
    let v = other(random, w, workers);
    let event = match random.below(100) {
        0..6 if workers > 1 => 64 + 8 * w + v,
        6..10 if workers > 1 => 128 + 8 * w + v,
        10..15 => 192,
        _ => 8 * w,
    };
    event as u8
}

/// Full rounds, and before each one a split or a unite by each worker. So several workers have work,
/// and look at the same time: two of them mark the same vertex more often than in random events.
fn shared_event(random: &mut Random, workers: usize, place: usize) -> u8 {
    let w = place % (2 * workers + 1);
    if workers == 1 || w >= workers {
        return round_event(workers, w.saturating_sub(workers));
    }
    let kind = if random.percent(80) { 64 } else { 128 };
    (kind + 8 * w + other(random, w, workers)) as u8
}

/// A schedule that finishes, cut at its finishing event. The file is an accepted one.
pub fn finishing_schedule(
    random: &mut Random,
    kind: Kind,
    file: &[u8],
    source: usize,
    workers: usize,
) -> Vec<u8> {
    let word = |at: usize| usize::from(u16::from_le_bytes([file[at], file[at + 1]]));
    let mut lists = Lists::zeros(ample(word(0), word(2), workers));
    let mut schedule = Vec::new();
    let mut length = 256;
    while length < MOST_EVENTS {
        schedule.extend((schedule.len()..length).map(|place| event(random, kind, workers, place)));
        let query = Query {
            file,
            source,
            workers,
            schedule: &schedule,
        };
        let outcome = search_untold(&query, &mut lists);
        if outcome.number == DONE {
            schedule.truncate(outcome.answer[1] as usize);
            return schedule;
        }
        length *= 2;
    }
    panic!("{} events don't finish the search", schedule.len());
}
