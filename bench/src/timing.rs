//! How calls are timed: in batches, which are long enough for the clock and taken in turn, with medians
//! over the repeats. The tables are Markdown.

use crate::proved;
use hopbench::calls::{plain_search, Outcome, Query};
use hopbench::lists::Lists;
use std::hint::black_box;
use std::time::{Duration, Instant};

/// A search of either engine.
pub type Search = fn(&Query, &mut Lists) -> Outcome;

/// The two engines, in the order of the columns.
pub const ENGINES: [Search; 2] = [proved::search, plain_search];

/// Calls a search `count` times.
pub fn repeat(search: Search, query: &Query, lists: &mut Lists, count: usize) {
    for _ in 0..count {
        black_box(search(black_box(query), lists));
    }
}

/// Nanoseconds of each call in a batch.
pub fn time(count: usize, mut batch: impl FnMut(usize)) -> f64 {
    let start = Instant::now();
    batch(count);
    start.elapsed().as_nanos() as f64 / count as f64
}

/// How many calls make a batch so long.
pub fn batch_size(shortest: Duration, mut batch: impl FnMut(usize)) -> usize {
    let mut count = 1;
    loop {
        let start = Instant::now();
        batch(count);
        let took = start.elapsed();
        if took >= shortest {
            return count;
        }
        let times = shortest.as_secs_f64() / took.as_secs_f64().max(1e-9);
        count = ((count as f64 * times * 1.1) as usize).clamp(count + 1, 10 * count);
    }
}

/// Median, and what one in ten is below and above.
pub struct Spread {
    pub median: f64,
    low: f64,
    high: f64,
}

impl Spread {
    pub fn new(values: impl Iterator<Item = f64>) -> Self {
        let mut values: Vec<f64> = values.collect();
        values.sort_by(f64::total_cmp);
        let at = |tenths: usize| values[(values.len() - 1) * tenths / 10];
        Spread {
            median: at(5),
            low: at(1),
            high: at(9),
        }
    }

    pub fn ratio(&self) -> String {
        format!("{:.2} ({:.2}–{:.2})", self.median, self.low, self.high)
    }
}

pub fn print_heading(headings: &[String]) {
    println!("| {} |", headings.join(" | "));
    println!("|{}", "---|".repeat(headings.len()));
}
