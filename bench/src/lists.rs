//! The lists that a caller lends to the calls, kept together so that both implementations get equal
//! ones and everything that they leave can be compared.

use crate::plain::file::file_length;
use crate::plain::page::page_length;
use crate::plain::{LabelLists, NodeLists, RowLists};

pub const OFFSETS: usize = 0;
pub const TARGETS: usize = 1;
pub const MARKS: usize = 2;
pub const DISTANCES: usize = 3;
pub const PARENTS: usize = 4;
/// The census.
pub const HISTOGRAM: usize = 5;
pub const LEFT: usize = 6;
pub const RIGHT: usize = 7;
pub const VALUES: usize = 8;
/// The writer's file or the pages: the only list of bytes.
pub const BYTES: usize = 9;

pub const LISTS: usize = 10;

pub const NAMES: [&str; LISTS] = [
    "offsets",
    "targets",
    "marks",
    "distances",
    "parents",
    "census",
    "left",
    "right",
    "values",
    "bytes",
];

/// All lists that any call takes. A call touches only its own.
#[derive(Clone, Debug, Default)]
pub struct Lists {
    pub words: [Vec<u16>; BYTES],
    pub bytes: Vec<u8>,
}

/// The lists as a call takes them.
pub struct Parts<'a> {
    pub rows: RowLists<'a>,
    pub labels: LabelLists<'a>,
    pub histogram: &'a mut [u16],
    pub nodes: NodeLists<'a>,
    pub bytes: &'a mut [u8],
}

/// What the lists need for a file of n vertices and m edges, P workers and `bytes` bytes.
pub fn needs(n: usize, m: usize, workers: usize, bytes: usize) -> [usize; LISTS] {
    let nodes = workers * n + 1;
    [n + 1, m, m, n, n, n, nodes, nodes, nodes, bytes]
}

/// Enough for every call on such a file.
pub fn ample(n: usize, m: usize, workers: usize) -> [usize; LISTS] {
    needs(n, m, workers, file_length(n, m).max(page_length(n)))
}

impl Lists {
    /// Lists of these lengths, each place made by the caller's function.
    pub fn filled(lengths: [usize; LISTS], mut place: impl FnMut() -> u16) -> Self {
        let mut lists = Lists::default();
        for (list, &length) in lists.words.iter_mut().zip(&lengths) {
            list.extend((0..length).map(|_| place()));
        }
        lists
            .bytes
            .extend((0..lengths[BYTES]).map(|_| place() as u8));
        lists
    }

    /// Lists of these lengths, all places 0.
    pub fn zeros(lengths: [usize; LISTS]) -> Self {
        Lists::filled(lengths, || 0)
    }

    pub fn parts(&mut self) -> Parts<'_> {
        let [offsets, targets, marks, distances, parents, histogram, left, right, values] =
            &mut self.words;
        Parts {
            rows: RowLists {
                offsets,
                targets,
                marks,
            },
            labels: LabelLists { distances, parents },
            histogram,
            nodes: NodeLists {
                left,
                right,
                values,
            },
            bytes: &mut self.bytes,
        }
    }

    /// The first place at which two sets of lists differ, in words.
    pub fn difference(&self, other: &Lists) -> Option<String> {
        let words = self.words.iter().zip(&other.words);
        words
            .zip(NAMES)
            .find_map(|((ours, theirs), name)| first_difference(name, ours, theirs))
            .or_else(|| first_difference(NAMES[BYTES], &self.bytes, &other.bytes))
    }
}

fn first_difference<T: PartialEq + std::fmt::Display>(
    name: &str,
    ours: &[T],
    theirs: &[T],
) -> Option<String> {
    if ours.len() != theirs.len() {
        return Some(format!(
            "{name}: lengths {} and {}",
            ours.len(),
            theirs.len()
        ));
    }
    let place = ours.iter().zip(theirs).position(|(a, b)| a != b)?;
    let (a, b) = (&ours[place], &theirs[place]);
    Some(format!("{name}, place {place}: {a} and {b}"))
}
