//! What came up: how often each call gave each number, which lists were found too short alone, which
//! event bytes were played or refused, and whether two workers marked the same vertex.

use super::lent;
use hopbench::calls::{Call, CALLS};
use hopbench::inputs::event_bytes;
use hopbench::lists::{LISTS, NAMES};
use hopbench::plain::numbers::MOST_WORKERS;
use std::collections::BTreeMap;

/// One above the greatest number.
const NUMBERS: usize = 22;

#[derive(Default)]
pub struct Tally {
    numbers: [[usize; NUMBERS]; CALLS.len()],
    short: [[usize; LISTS]; CALLS.len()],
    played: BTreeMap<u8, usize>,
    refused: BTreeMap<u8, usize>,
    event_by_event: usize,
    marked_twice: usize,
}

/// The numbers that a call can give.
fn possible(call: Call) -> &'static [usize] {
    match call {
        Call::Read => &[0, 1, 2, 3, 4, 5, 6, 20],
        Call::Write => &[0, 11, 20],
        Call::Search => &[0, 1, 2, 3, 4, 5, 6, 7, 8, 9, 20, 21],
        Call::Check | Call::Page => &[0, 1, 2, 3, 4, 5, 6, 7, 10, 20],
    }
}

impl Tally {
    /// A call gave this number.
    pub fn count(&mut self, call: Call, number: usize) {
        self.numbers[call as usize][number] += 1;
    }

    /// A call gave 20 for this list, which was one short, and no other was.
    pub fn short_alone(&mut self, call: Call, list: usize) {
        self.short[call as usize][list] += 1;
    }

    /// A drawn schedule was played.
    pub fn played(&mut self, schedule: &[u8]) {
        for &byte in schedule {
            *self.played.entry(byte).or_default() += 1;
        }
    }

    /// A drawn schedule was refused for this byte, which was its only stray one.
    pub fn refused(&mut self, byte: u8) {
        *self.refused.entry(byte).or_default() += 1;
    }

    /// How often each byte came up: a well-formed one in a schedule that was played, a malformed one in
    /// a schedule that was refused for it.
    fn bytes(&self) -> impl Iterator<Item = (u8, usize)> + '_ {
        let well_formed = event_bytes(MOST_WORKERS);
        (0..=u8::MAX).map(move |byte| {
            let times = if well_formed.contains(&byte) {
                &self.played
            } else {
                &self.refused
            };
            (byte, times.get(&byte).copied().unwrap_or(0))
        })
    }

    /// A search was played event by event, and whether a vertex was seen to be marked by two workers.
    pub fn event_by_event(&mut self, marked_twice: bool) {
        self.event_by_event += 1;
        self.marked_twice += usize::from(marked_twice);
    }

    pub fn print(&self) {
        println!("how often each call gave each number:");
        for call in CALLS {
            print!("  {}:", call.name());
            for (number, times) in self.numbers[call as usize].iter().enumerate() {
                if *times > 0 {
                    print!("  {number} x {times}");
                }
            }
            println!();
        }
        println!("how often a list was one short, alone:");
        for call in CALLS {
            print!("  {}:", call.name());
            for list in lent(call) {
                print!("  {} x {}", NAMES[list], self.short[call as usize][list]);
            }
            println!();
        }
        if let Some((byte, times)) = self.bytes().min_by_key(|&(_, times)| times) {
            println!(
                "event bytes played, or malformed and refused: the rarest is {byte}, x {times}"
            );
        }
        println!(
            "searches played event by event: {}; with a vertex that two workers marked: {}",
            self.event_by_event, self.marked_twice
        );
    }

    /// An error that names what never came up.
    pub fn complete(&self) -> Result<(), String> {
        let mut missing = Vec::new();
        for call in CALLS {
            let numbers = possible(call).iter();
            let unseen = numbers.filter(|&&number| self.numbers[call as usize][number] == 0);
            missing.extend(unseen.map(|number| format!("{}: number {number}", call.name())));
            let lists = lent(call).into_iter();
            let unseen = lists.filter(|&list| self.short[call as usize][list] == 0);
            missing
                .extend(unseen.map(|list| format!("{}: {} one short", call.name(), NAMES[list])));
        }
        let unseen = self.bytes().filter(|&(_, times)| times == 0);
        missing.extend(unseen.map(|(byte, _)| format!("search: event byte {byte}")));
        if self.marked_twice == 0 {
            missing.push("search: a vertex that two workers mark".into());
        }
        if missing.is_empty() {
            return Ok(());
        }
        Err(format!("never came up: {}", missing.join("; ")))
    }
}
