//! Event bytes (docs/SPECIFICATION.md, §5): one table with what each byte says, and the form check by it.
//! The engine takes no byte apart.

use super::numbers::{MOST_EVENTS, MOST_WORKERS};

/// How many different bytes there are.
const BYTES: usize = 256;

/// The kinds of event. A byte that has none of the forms of §5.2 has a kind of its own.
#[derive(Clone, Copy, Debug, PartialEq, Eq)]
pub enum Kind {
    Work,
    Split,
    Unite,
    Close,
    Malformed,
}

/// What a byte says: w and v are 0 where its kind has none. It takes four bytes, since the place of
/// such an entry is found quicker than that of three.
#[derive(Clone, Copy)]
#[repr(align(4))]
pub struct Entry {
    pub kind: Kind,
    pub w: u8,
    pub v: u8,
}

/// An entry for each byte, in order. P is nowhere in it.
pub const TABLE: &[Entry; BYTES] = &table();

/// Goes over the kinds, w and v in the order of their bytes: v runs fastest, the kind slowest.
const fn table() -> [Entry; BYTES] {
    let mut table = [MALFORMED; BYTES];
    let (mut kind, mut w, mut v) = (0, 0, 0);
    let mut byte = 0;
    while byte < BYTES {
        table[byte] = entry(kind, w, v);
        byte += 1;
        v += 1;
        if v == 8 {
            (w, v) = (w + 1, 0);
        }
        if w == 8 {
            (kind, w) = (kind + 1, 0);
        }
    }
    table
}

/// The forms of §5.2.
const fn entry(kind: u8, w: u8, v: u8) -> Entry {
    let kind = match kind {
        0 if v == 0 => Kind::Work,
        1 if w != v => Kind::Split,
        2 if w != v => Kind::Unite,
        3 if w == 0 && v == 0 => Kind::Close,
        _ => return MALFORMED,
    };
    Entry { kind, w, v }
}

const MALFORMED: Entry = Entry {
    kind: Kind::Malformed,
    w: 0,
    v: 0,
};

/// For each P up to 8 and each byte, whether its entry is malformed or names a worker that isn't there:
/// looked up in the table once and for all, when this is compiled.
const STRAYS: &[[bool; BYTES]; MOST_WORKERS + 1] = &{
    let mut strays = [[false; BYTES]; MOST_WORKERS + 1];
    let mut workers = 0;
    while workers <= MOST_WORKERS {
        strays[workers] = strays_of(workers as u8);
        workers += 1;
    }
    strays
};

const fn strays_of(workers: u8) -> [bool; BYTES] {
    let mut strays = [false; BYTES];
    let mut byte = 0;
    while byte < BYTES {
        let Entry { kind, w, v } = TABLE[byte];
        strays[byte] = matches!(kind, Kind::Malformed) || w >= workers || v >= workers;
        byte += 1;
    }
    strays
}

/// The form check of a whole schedule, for P from 1 to 8. It goes on behind the first stray byte: a
/// loop without an exit is the quicker one.
pub fn malformed(schedule: &[u8], workers: usize) -> bool {
    let strays = &STRAYS[workers];
    schedule.len() > MOST_EVENTS
        || schedule
            .iter()
            .fold(false, |stray, &byte| stray | strays[usize::from(byte)])
}

#[cfg(test)]
mod tests {
    use super::*;

    const KINDS: [Kind; 4] = [Kind::Work, Kind::Split, Kind::Unite, Kind::Close];

    /// Every byte as 64 × kind + 8 × w + v, in order.
    fn parts() -> impl Iterator<Item = (usize, usize, usize, usize)> {
        let pairs = || (0..8).flat_map(|w| (0..8).map(move |v| (w, v)));
        (0..4).flat_map(move |kind| pairs().map(move |(w, v)| (64 * kind + 8 * w + v, kind, w, v)))
    }

    /// The table of §5.2.
    fn has_form(kind: usize, w: usize, v: usize) -> bool {
        match kind {
            0 => v == 0,
            1 | 2 => w != v,
            _ => w == 0 && v == 0,
        }
    }

    #[test]
    fn entries_follow_the_formula() {
        assert!(parts().map(|(byte, ..)| byte).eq(0..BYTES));
        for (byte, kind, w, v) in parts() {
            let expected = if has_form(kind, w, v) {
                (KINDS[kind], w as u8, v as u8)
            } else {
                (Kind::Malformed, 0, 0)
            };
            let Entry { kind, w, v } = TABLE[byte];
            assert_eq!((kind, w, v), expected, "byte {byte}");
        }
    }

    #[test]
    fn entries_of_each_kind() {
        let count = |kind: Kind| TABLE.iter().filter(|entry| entry.kind == kind).count();
        assert_eq!(KINDS.map(count), [8, 56, 56, 1]);
        assert_eq!(count(Kind::Malformed), 135);
    }

    /// Each byte for each P, alone, and at each place of a schedule that is well-formed without it.
    #[test]
    fn form_check_follows_the_formula() {
        for workers in 1..=MOST_WORKERS {
            for (byte, kind, w, v) in parts() {
                let refused = !has_form(kind, w, v) || w >= workers || v >= workers;
                assert_eq!(malformed(&[byte as u8], workers), refused);
                for place in 0..40 {
                    let mut schedule = [192; 40];
                    schedule[place] = byte as u8;
                    assert_eq!(malformed(&schedule, workers), refused, "{byte} at {place}");
                }
            }
        }
    }

    #[test]
    fn form_check_has_a_greatest_length() {
        assert!(!malformed(&vec![0; MOST_EVENTS], 1));
        assert!(malformed(&vec![0; MOST_EVENTS + 1], 1));
    }
}
