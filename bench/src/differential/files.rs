//! Hearing files for the differential test: of all sizes, and damaged in every way that has a number.

use hopbench::inputs::{file_of, layered_graph, random_graph, Random};
use hopbench::plain::numbers::{MOST_EDGES, MOST_VERTICES};

/// A file with the n and m that it was made from.
pub struct Made {
    pub bytes: Vec<u8>,
    pub n: usize,
    pub m: usize,
}

impl Made {
    /// Whether n and m are within their sizes.
    pub fn fits(&self) -> bool {
        self.n <= MOST_VERTICES && self.m <= MOST_EDGES
    }
}

/// A word of a file.
fn word(bytes: &[u8], place: usize) -> usize {
    usize::from(u16::from_le_bytes([bytes[2 * place], bytes[2 * place + 1]]))
}

/// n and m of a file's header.
pub fn sizes(bytes: &[u8]) -> (usize, usize) {
    (word(bytes, 0), word(bytes, 1))
}

/// A file of n vertices and m edges that is as it should be.
pub fn accepted(random: &mut Random, n: usize, m: usize) -> Made {
    let rows = if m >= n && random.percent(40) {
        layered_graph(random, n, m)
    } else {
        random_graph(random, n, m)
    };
    let bytes = file_of(random, &rows);
    Made { bytes, n, m }
}

/// Numbers of vertices and edges: mostly small, some at the edges of pages and of the sizes.
pub fn random_sizes(random: &mut Random) -> (usize, usize) {
    match random.below(1_000) {
        0..6 => (
            random.pick(&[1, 4_095, 4_096, 4_097]),
            random.pick(&[0, 1, 4_097, 32_767, 32_768, 32_769]),
        ),
        6..40 => (random.between(1, 600), random.below(3_000)),
        40..160 => (random.pick(&[49, 50, 51, 99, 100, 101]), random.below(400)),
        160..300 => (1, random.below(4)),
        300..600 => (random.between(1, 5), random.below(8)),
        _ => (random.between(1, 24), random.below(80)),
    }
}

/// Damages a file, once or twice.
pub fn damage(random: &mut Random, made: &mut Made) {
    damage_once(random, made);
    if random.percent(25) {
        damage_once(random, made);
    }
}

fn damage_once(random: &mut Random, made: &mut Made) {
    match random.below(16) {
        0 => cut(random, &mut made.bytes),
        1 => made.bytes.extend((0..random.between(1, 5)).map(|_| 0)),
        2 => flip(random, &mut made.bytes),
        3 => header(random, made),
        4 | 5 => target(random, made),
        6 | 7 => index(random, made, |random, m| {
            random.pick(&[m + 1, m + 2, 65_535])
        }),
        8..12 => index(random, made, |random, m| random.between(m.min(1), m)),
        _ => index(random, made, |_, _| 0),
    }
}

/// Breaks the file off: by a few bytes, anywhere, or within its first words.
fn cut(random: &mut Random, bytes: &mut Vec<u8>) {
    let length = bytes.len();
    let left = match random.below(4) {
        0 => length.saturating_sub(random.between(1, 4)),
        1 => random.below(5).min(length),
        _ => random.below(length + 1),
    };
    bytes.truncate(left);
}

fn flip(random: &mut Random, bytes: &mut [u8]) {
    for _ in 0..random.between(1, 3) {
        if !bytes.is_empty() {
            let place = random.below(bytes.len());
            bytes[place] ^= 1 << random.below(8);
        }
    }
}

/// Another n or m than the file was made from.
fn header(random: &mut Random, made: &mut Made) {
    let others = [
        0,
        1,
        4_096,
        4_097,
        32_768,
        32_769,
        65_535,
        made.n + 1,
        made.m + 1,
    ];
    let value = random.pick(&others);
    set(&mut made.bytes, random.below(2), value);
}

/// A target of n or more.
fn target(random: &mut Random, made: &mut Made) {
    if made.m > 0 {
        let place = 2 + made.n + 2 * random.below(made.m);
        let value = random.pick(&[made.n, made.n + 1, 65_535]);
        set(&mut made.bytes, place, value);
    }
}

/// Another head or next: above m, a record that a chain has already, or 0.
fn index(random: &mut Random, made: &mut Made, value: fn(&mut Random, usize) -> usize) {
    let chosen = random.below(made.n + made.m);
    let place = if chosen < made.n {
        2 + chosen
    } else {
        2 + made.n + 2 * (chosen - made.n) + 1
    };
    let value = value(random, made.m);
    set(&mut made.bytes, place, value);
}

/// Sets a word, if the file is still that long.
fn set(bytes: &mut [u8], place: usize, value: usize) {
    if let Some(word) = bytes.get_mut(2 * place..2 * place + 2) {
        word.copy_from_slice(&(value as u16).to_le_bytes());
    }
}
