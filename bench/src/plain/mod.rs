//! The plain implementation: the rules of docs/SPECIFICATION.md in safe Rust, written for speed. It was
//! written from the papers, from the documents and, for the adder, from the library's table (DECISIONS 90),
//! and shares no line with the proved library.
#![forbid(unsafe_code)]

pub mod bag;
pub mod check;
pub mod engine;
pub mod event;
pub mod file;
pub mod numbers;
pub mod page;

/// Where a reader puts its rows, with its marks.
pub struct RowLists<'a> {
    pub offsets: &'a mut [u16],
    pub targets: &'a mut [u16],
    pub marks: &'a mut [u16],
}

impl RowLists<'_> {
    /// Whether one of them is too short for n vertices and m edges.
    pub fn short(&self, n: usize, m: usize) -> bool {
        self.offsets.len() < n + 1 || self.targets.len() < m || self.marks.len() < m
    }
}

/// Where a search writes distances and parents.
pub struct LabelLists<'a> {
    pub distances: &'a mut [u16],
    pub parents: &'a mut [u16],
}

/// A result that is only read.
#[derive(Clone, Copy)]
pub struct Labels<'a> {
    pub distances: &'a [u16],
    pub parents: &'a [u16],
}

/// The bags' nodes.
pub struct NodeLists<'a> {
    pub left: &'a mut [u16],
    pub right: &'a mut [u16],
    pub values: &'a mut [u16],
}
