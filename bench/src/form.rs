//! The form check alone, by both engines. No call makes it alone: a search is timed that is refused right
//! behind it, by 20 for a list that is one short, and from it is taken the same search refused right
//! before it, by 8 for nine workers. So what an engine does ahead of the first byte is in the difference,
//! and so are the tests of the lists' lengths, which take some nanoseconds. Writes a Markdown table.

use crate::timing::{batch_size, print_heading, repeat, time, Spread, ENGINES};
use hopbench::calls::Query;
use hopbench::inputs::{bytes_of, event_bytes, Random};
use hopbench::lists::{needs, Lists, VALUES};
use hopbench::plain::numbers::{MOST_EVENTS, MOST_WORKERS, SCHEDULE, SHORT, WORKERS};
use std::array;
use std::time::Duration;

/// The schedules' lengths. Without a byte there is left what a check costs whatever its length.
const LENGTHS: [usize; 3] = [0, 1_500, MOST_EVENTS];
const SEED: u64 = 1;
const SHORTEST: Duration = Duration::from_millis(10);

/// One vertex without edges, and a schedule drawn from all bytes that eight workers may have.
struct Input {
    file: Vec<u8>,
    schedule: Vec<u8>,
}

impl Input {
    fn new() -> Self {
        let mut random = Random::new(SEED);
        let bytes = event_bytes(MOST_WORKERS);
        Input {
            file: bytes_of(&[1, 0, 0]),
            schedule: (0..MOST_EVENTS).map(|_| random.pick(&bytes)).collect(),
        }
    }

    /// The lists at their need, but the last is one short.
    fn lists(&self) -> Lists {
        let mut lengths = needs(1, 0, MOST_WORKERS, 0);
        lengths[VALUES] -= 1;
        Lists::zeros(lengths)
    }

    fn query<'a>(&'a self, workers: usize, schedule: &'a [u8]) -> Query<'a> {
        Query {
            file: &self.file,
            source: 0,
            workers,
            schedule,
        }
    }

    /// Refused right before the form check.
    fn before(&self) -> Query<'_> {
        self.query(MOST_WORKERS + 1, &[])
    }

    /// Refused right behind the form check of so many bytes.
    fn behind(&self, length: usize) -> Query<'_> {
        self.query(MOST_WORKERS, &self.schedule[..length])
    }

    /// Both engines refuse where they should: before the form check, behind it, and in it where the
    /// last byte is malformed.
    fn compare(&self) -> Result<(), String> {
        self.refused(&self.before(), WORKERS)?;
        for length in LENGTHS {
            self.refused(&self.behind(length), SHORT)?;
            let mut stray_last = self.schedule[..length].to_vec();
            if let Some(last) = stray_last.last_mut() {
                *last = 255;
                self.refused(&self.query(MOST_WORKERS, &stray_last), SCHEDULE)?;
            }
        }
        Ok(())
    }

    fn refused(&self, query: &Query, number: usize) -> Result<(), String> {
        let outcomes = ENGINES.map(|search| search(query, &mut self.lists()));
        if outcomes.iter().all(|outcome| outcome.number == number) {
            return Ok(());
        }
        let length = query.schedule.len();
        Err(format!("{length} bytes: {outcomes:?}, not {number}"))
    }
}

/// One repeat's nanoseconds of the form check for each length: (proved, plain) each.
type Repeat = [[f64; 2]; LENGTHS.len()];

fn measure(input: &Input, repeats: usize) -> Vec<Repeat> {
    let mut lists = input.lists();
    let behind = LENGTHS.map(|length| input.behind(length));
    let mut sized = |query: &Query| {
        ENGINES.map(|search| batch_size(SHORTEST, |count| repeat(search, query, &mut lists, count)))
    };
    let before_sizes = sized(&input.before());
    let behind_sizes = behind.map(|query| sized(&query));
    let mut timed = |query: &Query, sizes: [usize; 2]| {
        [0, 1].map(|engine| {
            time(sizes[engine], |count| {
                repeat(ENGINES[engine], query, &mut lists, count)
            })
        })
    };
    (0..repeats)
        .map(|_| {
            let before = timed(&input.before(), before_sizes);
            array::from_fn(|place| {
                let whole = timed(&behind[place], behind_sizes[place]);
                [0, 1].map(|engine| whole[engine] - before[engine])
            })
        })
        .collect()
}

/// A line: microseconds of a check, nanoseconds of a byte, and the ratio where there is a byte.
fn print(length: usize, times: &[[f64; 2]]) {
    let over = |value: fn(&[f64; 2]) -> f64| Spread::new(times.iter().map(value));
    let [proved, plain] = [over(|pair| pair[0]).median, over(|pair| pair[1]).median];
    print!("| {length} | {:.2} | {:.2} |", proved / 1e3, plain / 1e3);
    if length == 0 {
        println!(" | | |");
        return;
    }
    let bytes = length as f64;
    let ratio = over(|pair| pair[0] / pair[1]).ratio();
    println!(" {:.3} | {:.3} | {ratio} |", proved / bytes, plain / bytes);
}

const HEADINGS: [&str; 6] = [
    "bytes",
    "proved µs",
    "plain µs",
    "proved ns/byte",
    "plain ns/byte",
    "ratio",
];

/// The form check's table. An error says where the engines differ.
pub fn form(repeats: usize) -> Result<(), String> {
    let input = Input::new();
    input.compare()?;
    println!("The form check alone, P {MOST_WORKERS}: a search refused right behind it less one refused right before it. Turns of at least {SHORTEST:?}. Times are medians of {repeats} repeats; the ratio, proved / plain, too, with what one in ten is below and above.\n");
    print_heading(&HEADINGS.map(String::from));
    let repeats = measure(&input, repeats);
    for (place, length) in LENGTHS.into_iter().enumerate() {
        let times: Vec<[f64; 2]> = repeats.iter().map(|repeat| repeat[place]).collect();
        print(length, &times);
    }
    Ok(())
}
