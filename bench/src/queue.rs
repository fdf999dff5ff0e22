//! What the answers are compared with: a plain queue search without schedule, workers or bags, which
//! is the third engine of the benchmark too, and a recount of distances.

use crate::plain::file;
use crate::plain::numbers::{DONE, UNSET};
use crate::plain::{LabelLists, RowLists};

/// Distances and parents from the file's bytes: reads the rows, then searches them. `queue` has a
/// place for each vertex. Answers the reader's number.
pub fn search(
    file: &[u8],
    source: usize,
    mut rows: RowLists,
    labels: LabelLists,
    queue: &mut [u16],
) -> u32 {
    let [number, n, m] = file::read(file, &mut rows);
    if number == DONE as u32 {
        let (n, m) = (n as usize, m as usize);
        let (offsets, targets) = (&rows.offsets[..n + 1], &rows.targets[..m]);
        let distances = &mut labels.distances[..n];
        let parents = &mut labels.parents[..n];
        search_rows(offsets, targets, source, distances, parents, queue);
    }
    number
}

/// Distances and parents from rows. The lists have a place for each vertex.
pub fn search_rows(
    offsets: &[u16],
    targets: &[u16],
    source: usize,
    distances: &mut [u16],
    parents: &mut [u16],
    queue: &mut [u16],
) {
    distances.fill(UNSET);
    parents.fill(UNSET);
    distances[source] = 0;
    parents[source] = source as u16;
    queue[0] = source as u16;
    let (mut first, mut end) = (0, 1);
    while first < end {
        let vertex = queue[first];
        first += 1;
        let farther = distances[usize::from(vertex)] + 1;
        let row =
            usize::from(offsets[usize::from(vertex)])..offsets[usize::from(vertex) + 1].into();
        for &target in &targets[row] {
            let distance = &mut distances[usize::from(target)];
            if *distance == UNSET {
                *distance = farther;
                parents[usize::from(target)] = vertex;
                queue[end] = target;
                end += 1;
            }
        }
    }
}

/// The census of these distances, counted afresh: place h has how many of them are h. A vertex that is
/// unset has no place.
pub fn recount(distances: &[u16]) -> Vec<u16> {
    let mut counts = vec![0; distances.len()];
    for &distance in distances {
        if let Some(count) = counts.get_mut(usize::from(distance)) {
            *count += 1;
        }
    }
    counts
}
