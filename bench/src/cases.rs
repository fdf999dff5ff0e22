//! Document 01's bench cases A to I, with what they must answer and leave.

use crate::calls::Query;
use crate::inputs::bytes_of;
use crate::lists::{Lists, DISTANCES, HISTOGRAM, PARENTS};

/// A search from source 0, its answer, and the labels and the census that it leaves, of an accepted
/// file.
pub struct Case {
    pub name: &'static str,
    pub file: Vec<u8>,
    pub workers: usize,
    pub schedule: Vec<u8>,
    pub answer: [u32; 4],
    pub labels: Vec<[u16; 2]>,
    pub histogram: Vec<u16>,
}

const CASE_A: [u8; 25] = [
    0, 0, 0, 0, 0, 0, 0, 0, 0, 192, 72, 0, 8, 0, 8, 0, 8, 8, 0, 0, 8, 192, 0, 0, 192,
];

/// A and B: the same but for events 18 and 19, which say who names vertex 3 last. Both workers mark
/// it, and it counts once.
fn four(name: &'static str, swapped: bool) -> Case {
    let mut schedule = CASE_A.to_vec();
    if swapped {
        schedule.swap(17, 18);
    }
    Case {
        name,
        file: bytes_of(&[4, 4, 1, 3, 4, 0, 1, 2, 2, 0, 3, 0, 3, 0]),
        workers: 2,
        schedule,
        answer: [0, 25, 25, 2],
        labels: vec![[0, 0], [1, 0], [1, 0], [2, if swapped { 2 } else { 1 }]],
        histogram: vec![1, 2, 1, 0],
    }
}

/// C and its kin: one vertex, or none.
fn one(name: &'static str, words: &[u16], number: u32) -> Case {
    Case {
        name,
        file: bytes_of(words),
        workers: 1,
        schedule: vec![0, 192],
        answer: [number, 0, 0, 0],
        labels: Vec::new(),
        histogram: Vec::new(),
    }
}

pub fn bench_cases() -> Vec<Case> {
    let c = || Case {
        answer: [0, 2, 2, 0],
        labels: vec![[0, 0]],
        histogram: vec![1],
        ..one("C", &[1, 0, 0], 0)
    };
    vec![
        four("A", false),
        four("B", true),
        c(),
        Case {
            name: "D",
            schedule: Vec::new(),
            answer: [21, 0, 0, 0],
            ..c()
        },
        one("E", &[1, 1, 0, 0, 0], 6),
        one("F", &[1, 1, 1, 0, 1], 5),
        one("G", &[0, 0], 2),
        Case {
            workers: 9,
            ..one("H", &[1, 0, 0], 8)
        },
        Case {
            schedule: vec![72],
            ..one("I", &[1, 0, 0], 9)
        },
    ]
}

impl Case {
    /// The case as a call's input.
    pub fn query(&self) -> Query<'_> {
        Query {
            file: &self.file,
            source: 0,
            workers: self.workers,
            schedule: &self.schedule,
        }
    }

    /// Whether an answer, or the labels or the census beside it, are not this case's.
    pub fn wrong(&self, answer: [u32; 4], lists: &Lists) -> bool {
        let mut labels = self.labels.iter().enumerate();
        let label = |v: usize| [DISTANCES, PARENTS].map(|list| lists.words[list][v]);
        answer != self.answer
            || labels.any(|(v, &expected)| label(v) != expected)
            || !lists.words[HISTOGRAM].starts_with(&self.histogram)
    }
}

#[cfg(test)]
mod tests {
    use super::*;
    use crate::calls::{Call, Library, Plain, Query};
    use crate::inputs::{file_of, finishing_schedule, random_graph, Random, ALL_KINDS};
    use crate::lists::ample;
    use crate::plain::numbers::UNSET;
    use crate::queue;

    #[test]
    fn plain_search_has_the_cases() {
        for case in bench_cases() {
            let mut lists = Lists::filled(ample(4, 4, 9), || 77);
            let outcome = Plain.call(Call::Search, &case.query(), &mut lists);
            assert!(
                !case.wrong(outcome.answer, &lists),
                "case {}: {outcome:?}",
                case.name
            );
        }
    }

    #[test]
    fn plain_search_is_a_queue_search() {
        for seed in 0..300 {
            let mut random = Random::new(seed);
            let (n, m) = (random.between(1, 40), random.below(120));
            let rows = random_graph(&mut random, n, m);
            let file = file_of(&mut random, &rows);
            let (source, workers) = (random.below(n), random.between(1, 8));
            let kind = random.pick(&ALL_KINDS);
            let schedule = finishing_schedule(&mut random, kind, &file, source, workers);
            let query = Query {
                file: &file,
                source,
                workers,
                schedule: &schedule,
            };
            let mut lists = Lists::zeros(ample(n, m, workers));
            let mut plain = lists.clone();
            let outcome = Plain.call(Call::Search, &query, &mut lists);
            assert_eq!(
                (outcome.number, outcome.answer[1]),
                (0, schedule.len() as u32)
            );
            let parts = plain.parts();
            queue::search(&file, source, parts.rows, parts.labels, &mut vec![0; n]);
            assert_eq!(lists.words[DISTANCES], plain.words[DISTANCES]);
            let recount = queue::recount(&plain.words[DISTANCES]);
            assert_eq!(lists.words[HISTOGRAM], recount);
            let far = plain.words[DISTANCES].iter().filter(|&&d| d != UNSET).max();
            assert_eq!(far.map(|&d| u32::from(d)), Some(outcome.answer[3]));
            assert_eq!(Plain.call(Call::Check, &query, &mut lists).number, 0);
        }
    }
}
