//! The command line: the benchmark, the differential test, and one row's calls for a profiler.

mod differential;
mod form;
mod proved;
mod table;
mod timing;

use hopbench::calls::plain_search;
use hopbench::inputs::KINDS;
use std::process::ExitCode;
use std::time::Duration;

const USAGE: &str = "usage:
  hopbench table [REPEATS MICROSECONDS]
      the benchmark, as Markdown: 15 repeats in turns of 10 ms, then 101 in turns of 200 µs; or
      REPEATS in turns of MICROSECONDS
  hopbench form [REPEATS]
      the form check alone, as Markdown: 51 repeats, or REPEATS
  hopbench differential [CASES [SEED [FIRST]]]
      the differential test; 20000 cases, seed 1; with FIRST only those cases from FIRST on
  hopbench one KIND N P SCHEDULE COUNT
      a row's search COUNT times, for a profiler; writes its number of events
      KIND: proved, plain, setup-proved or setup-plain; N: 64, 512 or 4096; P: 1 to 8;
      SCHEDULE: rounds or random";

fn number<T: std::str::FromStr>(text: &str) -> Result<T, String> {
    text.parse()
        .map_err(|_| format!("{text}: not a number\n{USAGE}"))
}

/// `one`: the calls of a row that a profiler counts.
fn one(kind: &str, n: &str, workers: &str, schedule: &str, count: &str) -> Result<(), String> {
    let known = KINDS.into_iter().find(|kind| kind.name() == schedule);
    let workers = number(workers)?;
    let (Some(schedule), 1..=8) = (known, workers) else {
        return Err(USAGE.into());
    };
    let input = table::Input::of_size(number(n)?, workers, schedule).ok_or(USAGE)?;
    let (search, query): (timing::Search, _) = match kind {
        "proved" => (proved::search, input.whole()),
        "plain" => (plain_search, input.whole()),
        "setup-proved" => (proved::search, input.set_up()),
        "setup-plain" => (plain_search, input.set_up()),
        _ => return Err(USAGE.into()),
    };
    timing::repeat(search, &query, &mut input.lists(), number(count)?);
    println!("{}", input.events());
    Ok(())
}

fn run(arguments: &[&str]) -> Result<(), String> {
    match arguments {
        ["table"] => {
            table::table(&table::LONG_TURNS)?;
            println!();
            table::table(&table::SHORT_TURNS)
        }
        ["table", repeats, micros] => table::table(&table::Turns {
            shortest: Duration::from_micros(number(micros)?),
            repeats: number::<usize>(repeats)?.max(1),
        }),
        ["form"] => form::form(51),
        ["form", repeats] => form::form(number::<usize>(repeats)?.max(1)),
        ["differential"] => differential::differential(20_000, 1, None),
        ["differential", count] => differential::differential(number(count)?, 1, None),
        ["differential", count, seed] => {
            differential::differential(number(count)?, number(seed)?, None)
        }
        ["differential", count, seed, first] => {
            differential::differential(number(count)?, number(seed)?, Some(number(first)?))
        }
        ["one", kind, n, workers, schedule, count] => one(kind, n, workers, schedule, count),
        _ => Err(USAGE.into()),
    }
}

fn main() -> ExitCode {
    let arguments: Vec<String> = std::env::args().skip(1).collect();
    let arguments: Vec<&str> = arguments.iter().map(String::as_str).collect();
    match run(&arguments) {
        Ok(()) => ExitCode::SUCCESS,
        Err(message) => {
            eprintln!("{message}");
            ExitCode::FAILURE
        }
    }
}
