//! Schedules for the differential test: finishing, spent, overlong behind the finishing event, and
//! malformed.

use super::files::Made;
use hopbench::inputs::{event, event_bytes, finishing_schedule, Kind, Random, ALL_KINDS};

/// Full rounds, cut to a length.
pub fn rounds(workers: usize, length: usize) -> Vec<u8> {
    let mut unused = Random::new(0);
    (0..length)
        .map(|place| event(&mut unused, Kind::Rounds, workers, place))
        .collect()
}

/// Well-formed events in any order.
fn well_formed(random: &mut Random, workers: usize, length: usize) -> Vec<u8> {
    let kind = random.pick(&ALL_KINDS);
    (0..length)
        .map(|place| event(random, kind, workers, place))
        .collect()
}

/// A schedule that finishes, whole, with events behind, or with its end cut off.
fn finishing(random: &mut Random, made: &Made, source: usize, workers: usize) -> Vec<u8> {
    let kind = random.pick(&ALL_KINDS);
    let mut schedule = finishing_schedule(random, kind, &made.bytes, source, workers);
    match random.below(4) {
        0 => {
            let more = random.between(1, 50);
            schedule.extend(well_formed(random, workers, more));
        }
        1 => schedule.truncate(schedule.len() - 1),
        2 => schedule.truncate(random.below(schedule.len())),
        _ => (),
    }
    schedule
}

/// Puts a byte that may be of no form, or of a worker that isn't there, at some place or behind.
pub fn spoil(random: &mut Random, schedule: &mut Vec<u8>, workers: usize) {
    let other = match random.below(3) {
        0 => 8 * workers.min(7),
        1 => random.pick(&[1, 64, 73, 128, 191, 193, 255]),
        _ => random.below(256),
    } as u8;
    let place = if random.percent(40) {
        schedule.len()
    } else {
        random.below(schedule.len() + 1)
    };
    schedule.insert(place, other);
}

/// A byte that no schedule of P workers may have.
pub fn stray(random: &mut Random, workers: usize) -> u8 {
    let known = event_bytes(workers);
    let strays: Vec<u8> = (0..=u8::MAX).filter(|byte| !known.contains(byte)).collect();
    random.pick(&strays)
}

/// A well-formed schedule for this file, which is accepted if `sound`. P is from 1 to 8.
pub fn random_schedule(
    random: &mut Random,
    made: &Made,
    sound: bool,
    source: usize,
    workers: usize,
) -> Vec<u8> {
    match random.below(10) {
        0 => Vec::new(),
        1..7 if sound => finishing(random, made, source, workers),
        _ => {
            let length = random.below(300);
            well_formed(random, workers, length)
        }
    }
}
