//! The five calls in one shape, so that the proved library and the plain one can be put side by
//! side: what is asked, what is answered, and the plain implementation of it.

pub use crate::plain::engine::Query;

use crate::lists::{Lists, Parts};
use crate::plain::{check, engine, file, page, LabelLists, Labels};

#[derive(Clone, Copy, Debug, PartialEq, Eq)]
pub enum Call {
    Read,
    Write,
    Search,
    Check,
    Page,
}

pub const CALLS: [Call; 5] = [
    Call::Read,
    Call::Write,
    Call::Search,
    Call::Check,
    Call::Page,
];

impl Call {
    pub fn name(self) -> &'static str {
        match self {
            Call::Read => "read",
            Call::Write => "write",
            Call::Search => "search",
            Call::Check => "check",
            Call::Page => "page",
        }
    }
}

/// A call's number, and what stands in its answer: the number again and its values, 0 where it has
/// none.
#[derive(Clone, Copy, Debug, PartialEq, Eq)]
pub struct Outcome {
    pub number: usize,
    pub answer: [u32; 4],
}

impl Outcome {
    /// Of a call that answers a number alone.
    pub fn alone(number: usize) -> Self {
        Outcome {
            number,
            answer: [number as u32, 0, 0, 0],
        }
    }
}

/// An implementation of the calls. The writer takes offsets and targets of the lists whole; a call
/// that takes no source, workers or schedule doesn't look at them.
pub trait Library {
    fn call(&self, call: Call, query: &Query, lists: &mut Lists) -> Outcome;
}

pub struct Plain;

impl Library for Plain {
    fn call(&self, call: Call, query: &Query, lists: &mut Lists) -> Outcome {
        let (file, source) = (query.file, query.source);
        match call {
            Call::Search => plain_search(query, lists),
            Call::Read => plain_read(file, lists),
            Call::Write => {
                let Parts { rows, bytes, .. } = lists.parts();
                Outcome::alone(file::write(rows.offsets, rows.targets, bytes))
            }
            Call::Check => {
                let mut parts = lists.parts();
                let labels = only_read(parts.labels);
                Outcome::alone(check::check(file, source, labels, &mut parts.rows))
            }
            Call::Page => {
                let mut parts = lists.parts();
                let labels = only_read(parts.labels);
                Outcome::alone(page::page(
                    file,
                    source,
                    labels,
                    &mut parts.rows,
                    parts.bytes,
                ))
            }
        }
    }
}

fn plain_read(file: &[u8], lists: &mut Lists) -> Outcome {
    let [number, n, m] = file::read(file, &mut lists.parts().rows);
    Outcome {
        number: number as usize,
        answer: [number, n, m, 0],
    }
}

fn only_read(labels: LabelLists<'_>) -> Labels<'_> {
    Labels {
        distances: labels.distances,
        parents: labels.parents,
    }
}

/// The plain search. A symbol of its own: profiles of the plain engine start here.
#[no_mangle]
#[inline(never)]
pub fn plain_search(query: &Query, lists: &mut Lists) -> Outcome {
    search_untold(query, lists)
}

/// The same search for preparations, which no profile should count.
#[inline]
pub fn search_untold(query: &Query, lists: &mut Lists) -> Outcome {
    let parts = lists.parts();
    let answer = engine::search(
        query,
        parts.rows,
        parts.labels,
        parts.histogram,
        parts.nodes,
    );
    Outcome {
        number: answer[0] as usize,
        answer,
    }
}
