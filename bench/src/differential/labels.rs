//! Results for checker and pages: right ones, and wrong ones of every kind.

use super::files::{sizes, Made};
use super::schedules;
use hopbench::calls::{search_untold, Query};
use hopbench::inputs::Random;
use hopbench::lists::{ample, Lists, DISTANCES, PARENTS};
use hopbench::plain::numbers::UNSET;
use hopbench::queue;

/// Distances and parents.
pub struct Labelling {
    pub distances: Vec<u16>,
    pub parents: Vec<u16>,
}

impl Labelling {
    /// The labels that a search left.
    fn of(mut lists: Lists) -> Self {
        Labelling {
            distances: std::mem::take(&mut lists.words[DISTANCES]),
            parents: std::mem::take(&mut lists.words[PARENTS]),
        }
    }
}

/// The queue search's result of an accepted file.
pub fn right(file: &[u8], source: usize) -> Labelling {
    let (n, m) = sizes(file);
    let mut lists = Lists::zeros(ample(n, m, 0));
    let parts = lists.parts();
    queue::search(file, source, parts.rows, parts.labels, &mut vec![0; n]);
    Labelling::of(lists)
}

/// The result of a search under some schedule, finished or not.
fn played(random: &mut Random, made: &Made, source: usize) -> Labelling {
    let workers = random.between(1, 8);
    let schedule = schedules::random_schedule(random, made, true, source, workers);
    let query = Query {
        file: &made.bytes,
        source,
        workers,
        schedule: &schedule,
    };
    let mut lists = Lists::zeros(ample(made.n, made.m, workers));
    search_untold(&query, &mut lists);
    Labelling::of(lists)
}

/// A label that is mostly another one.
fn other_label(random: &mut Random, label: u16, n: usize) -> u16 {
    match random.below(6) {
        0 => UNSET,
        1 => label.wrapping_add(1),
        2 => label.wrapping_sub(1),
        3 => n as u16,
        _ => random.below(n) as u16,
    }
}

/// A result of an accepted file: right, or wrong in one place, or of another search.
pub fn random_result(random: &mut Random, made: &Made, source: usize) -> Labelling {
    let vertex = random.below(made.n);
    let mut result = right(&made.bytes, source);
    match random.below(10) {
        0 | 1 => result.distances[vertex] = other_label(random, result.distances[vertex], made.n),
        2 | 3 => result.parents[vertex] = other_label(random, result.parents[vertex], made.n),
        4 => result = right(&made.bytes, vertex),
        5 | 6 => result = played(random, made, source),
        7 if random.percent(30) => result.distances.fill_with(|| random.draw() as u16),
        _ => (),
    }
    result
}
