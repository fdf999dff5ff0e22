//! The proved library through its C interface. All unsafe code of this package is here: each list
//! goes over as a pointer and its length.

use hopbench::calls::{Call, Library, Outcome, Query};
use hopbench::lists::Lists;

#[rustfmt::skip]
#[link(name = "capi", kind = "static")]
extern "C" {
    fn hopmap_read(
        file: *const u8, file_len: usize,
        offsets: *mut u16, offsets_len: usize,
        targets: *mut u16, targets_len: usize,
        marks: *mut u16, marks_len: usize,
        answer: *mut u32,
    ) -> usize;

    fn hopmap_write(
        offsets: *const u16, offsets_len: usize,
        targets: *const u16, targets_len: usize,
        file: *mut u8, file_len: usize,
    ) -> usize;

    fn hopmap_search(
        file: *const u8, file_len: usize,
        source: usize,
        workers: usize,
        schedule: *const u8, schedule_len: usize,
        offsets: *mut u16, offsets_len: usize,
        targets: *mut u16, targets_len: usize,
        marks: *mut u16, marks_len: usize,
        distances: *mut u16, distances_len: usize,
        parents: *mut u16, parents_len: usize,
        census: *mut u16, census_len: usize,
        left: *mut u16, left_len: usize,
        right: *mut u16, right_len: usize,
        values: *mut u16, values_len: usize,
        answer: *mut u32,
    ) -> usize;

    fn hopmap_check(
        file: *const u8, file_len: usize,
        source: usize,
        distances: *const u16, distances_len: usize,
        parents: *const u16, parents_len: usize,
        offsets: *mut u16, offsets_len: usize,
        targets: *mut u16, targets_len: usize,
        marks: *mut u16, marks_len: usize,
    ) -> usize;

    fn hopmap_page(
        file: *const u8, file_len: usize,
        source: usize,
        distances: *const u16, distances_len: usize,
        parents: *const u16, parents_len: usize,
        offsets: *mut u16, offsets_len: usize,
        targets: *mut u16, targets_len: usize,
        marks: *mut u16, marks_len: usize,
        bytes: *mut u8, bytes_len: usize,
    ) -> usize;
}

/// What an answer holds before a call: no call answers it.
const UNANSWERED: u32 = 0xA5A5_A5A5;

pub struct Proved;

impl Library for Proved {
    fn call(&self, call: Call, query: &Query, lists: &mut Lists) -> Outcome {
        match call {
            Call::Read => read(query.file, lists),
            Call::Write => write(lists),
            Call::Search => search(query, lists),
            Call::Check => check(query, lists),
            Call::Page => page(query, lists),
        }
    }
}

#[rustfmt::skip]
fn read(file: &[u8], lists: &mut Lists) -> Outcome {
    let [offsets, targets, marks, ..] = &mut lists.words;
    let mut answer = [UNANSWERED; 4];
    // SAFETY: each pointer comes with the length of its own list; the answer has the three places.
    let number = unsafe {
        hopmap_read(
            file.as_ptr(), file.len(),
            offsets.as_mut_ptr(), offsets.len(),
            targets.as_mut_ptr(), targets.len(),
            marks.as_mut_ptr(), marks.len(),
            answer.as_mut_ptr(),
        )
    };
    assert_eq!(answer[3], UNANSWERED, "the reader's answer has three places");
    answer[3] = 0;
    Outcome { number, answer }
}

#[rustfmt::skip]
fn write(lists: &mut Lists) -> Outcome {
    let [offsets, targets, ..] = &lists.words;
    // SAFETY: each pointer comes with the length of its own list.
    Outcome::alone(unsafe {
        hopmap_write(
            offsets.as_ptr(), offsets.len(),
            targets.as_ptr(), targets.len(),
            lists.bytes.as_mut_ptr(), lists.bytes.len(),
        )
    })
}

/// The proved search, called as the plain one is.
#[rustfmt::skip]
pub fn search(query: &Query, lists: &mut Lists) -> Outcome {
    let [offsets, targets, marks, distances, parents, histogram, left, right, values] = &mut lists.words;
    let mut answer = [UNANSWERED; 4];
    // SAFETY: each pointer comes with the length of its own list; the answer has the four places.
    let returned = unsafe {
        hopmap_search(
            query.file.as_ptr(), query.file.len(),
            query.source,
            query.workers,
            query.schedule.as_ptr(), query.schedule.len(),
            offsets.as_mut_ptr(), offsets.len(),
            targets.as_mut_ptr(), targets.len(),
            marks.as_mut_ptr(), marks.len(),
            distances.as_mut_ptr(), distances.len(),
            parents.as_mut_ptr(), parents.len(),
            histogram.as_mut_ptr(), histogram.len(),
            left.as_mut_ptr(), left.len(),
            right.as_mut_ptr(), right.len(),
            values.as_mut_ptr(), values.len(),
            answer.as_mut_ptr(),
        )
    };
    Outcome {
        number: returned,
        answer,
    }
}

#[rustfmt::skip]
fn check(query: &Query, lists: &mut Lists) -> Outcome {
    let [offsets, targets, marks, distances, parents, ..] = &mut lists.words;
    // SAFETY: each pointer comes with the length of its own list.
    Outcome::alone(unsafe {
        hopmap_check(
            query.file.as_ptr(), query.file.len(),
            query.source,
            distances.as_ptr(), distances.len(),
            parents.as_ptr(), parents.len(),
            offsets.as_mut_ptr(), offsets.len(),
            targets.as_mut_ptr(), targets.len(),
            marks.as_mut_ptr(), marks.len(),
        )
    })
}

#[rustfmt::skip]
fn page(query: &Query, lists: &mut Lists) -> Outcome {
    let [offsets, targets, marks, distances, parents, ..] = &mut lists.words;
    // SAFETY: each pointer comes with the length of its own list.
    Outcome::alone(unsafe {
        hopmap_page(
            query.file.as_ptr(), query.file.len(),
            query.source,
            distances.as_ptr(), distances.len(),
            parents.as_ptr(), parents.len(),
            offsets.as_mut_ptr(), offsets.len(),
            targets.as_mut_ptr(), targets.len(),
            marks.as_mut_ptr(), marks.len(),
            lists.bytes.as_mut_ptr(), lists.bytes.len(),
        )
    })
}
