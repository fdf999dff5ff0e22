//! The checker. It makes the distances anew, layer by layer, and compares.

use super::file::File;
use super::numbers::*;
use super::{Labels, RowLists};
use crate::queue;

/// The checker's number.
pub fn check(bytes: &[u8], source: usize, labels: Labels, rows: &mut RowLists) -> usize {
    match judge(bytes, source, labels, rows) {
        Ok(_) => DONE,
        Err(number) => number,
    }
}

/// The tests in their order; n where all are passed.
pub fn judge(
    bytes: &[u8],
    source: usize,
    labels: Labels,
    rows: &mut RowLists,
) -> Result<usize, usize> {
    let file = File::open(bytes)?;
    let (n, m) = (file.n(), file.m());
    if source >= n {
        return Err(SOURCE);
    }
    if rows.short(n, m) || labels.distances.len() < n || labels.parents.len() < n {
        return Err(SHORT);
    }
    file.unchain(rows)?;
    let (offsets, targets) = (&rows.offsets[..n + 1], &rows.targets[..m]);
    let mut distances = vec![0; n];
    queue::search_rows(
        offsets,
        targets,
        source,
        &mut distances,
        &mut vec![0; n],
        &mut vec![0; n],
    );
    if labels.distances[..n] != distances {
        return Err(WRONG);
    }
    let right = (0..n).all(|vertex| {
        let parent = labels.parents[vertex];
        if vertex == source {
            return usize::from(parent) == source;
        }
        if distances[vertex] == UNSET {
            return parent == UNSET;
        }
        leads_to(offsets, targets, &distances, parent.into(), vertex)
    });
    if right {
        Ok(n)
    } else {
        Err(WRONG)
    }
}

/// Whether this parent has an edge to the vertex and a distance one less.
fn leads_to(
    offsets: &[u16],
    targets: &[u16],
    distances: &[u16],
    parent: usize,
    vertex: usize,
) -> bool {
    let Some(&nearer) = distances.get(parent) else {
        return false;
    };
    let row = &targets[offsets[parent].into()..offsets[parent + 1].into()];
    nearer != UNSET
        && nearer + 1 == distances[vertex]
        && row.iter().any(|&target| usize::from(target) == vertex)
}
