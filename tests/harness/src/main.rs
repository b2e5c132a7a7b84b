//! harness calls SEED CALLS [NAME] -- COMMAND..  each function, or the one named, so many calls
//! harness cases FILE -- COMMAND..               the fixed cases of a file
//! harness demand3 SEED WIRES -- COMMAND..       demand 3 over so many wires
//! harness damages SEED COUNT -- COMMAND..       so many damages between two flags
//! harness listing SEED STREAMS -- COMMAND..     the listing program over so many streams
//! harness trip SEED STREAMS -- COMMAND..        the trip program over so many, and one more
//! harness replay WHAT NUMBERS -- COMMAND..      one input, of the numbers that it was drawn from;
//!                                               WHAT is a function, or one of the four before
//! harness streams SEED BYTES                    writes streams, so many bytes in all
//!
//! COMMAND starts the driver, or the program; a function has the name that the driver tells of it.
//! Of what differs the smallest input that is found is shown, with the lines that show it again.
//! The exit status is 0 where all agree, 1 where something differs.

#![forbid(unsafe_code)]

mod cases;
mod compare;
mod damages;
mod drawn;
mod driver;
mod ends;
mod entries;
mod fixed;
mod headers;
mod indexes;
mod lines;
mod messages;
mod odometers;
mod permits;
mod receivers;
mod request;
mod rows;
mod run;
mod senders;
mod show;
mod shrink;
mod streams;
mod tallies;
mod told;
mod trips;

use driver::Driver;
use run::Run;
use std::io::{stdout, Result};
use std::process::ExitCode;
use std::str::FromStr;
use std::thread::available_parallelism;

const USAGE: &str = "usage: harness calls SEED CALLS [NAME] -- COMMAND..
       harness cases FILE -- COMMAND..
       harness demand3|damages|listing|trip SEED COUNT -- COMMAND..
       harness replay NAME|demand3|damages|listing|trip NUMBERS -- COMMAND..
       harness streams SEED BYTES";

fn main() -> ExitCode {
    let mut arguments = std::env::args();
    let harness = arguments.next().unwrap_or("harness".to_string());
    let mut words: Vec<String> = arguments.collect();
    let dashes = words.iter().position(|word| word == "--");
    let command = dashes.map_or(Vec::new(), |place| words.split_off(place)[1..].to_vec());
    let words: Vec<&str> = words.iter().map(String::as_str).collect();
    let agreed = match words[..] {
        ["streams", seed, bytes] if dashes.is_none() => write_streams(seed, bytes),
        _ if command.is_empty() => None,
        _ => compare(&words, &Run { harness, command }),
    };
    match agreed {
        Some(Ok(true)) => ExitCode::SUCCESS,
        Some(Ok(false)) => ExitCode::FAILURE,
        Some(Err(error)) => {
            eprintln!("harness: {error}");
            ExitCode::from(3)
        }
        None => {
            eprintln!("{USAGE}");
            ExitCode::from(2)
        }
    }
}

fn number<T: FromStr>(word: &str) -> Option<T> {
    word.parse().ok()
}

fn write_streams(seed: &str, bytes: &str) -> Option<Result<bool>> {
    let (seed, bytes) = (number(seed)?, number(bytes)?);
    Some(streams::write_streams(seed, bytes, stdout().lock()).map(|()| true))
}

/// Whether all agree; none where the words ask for nothing.
fn compare(words: &[&str], run: &Run) -> Option<Result<bool>> {
    let workers = available_parallelism().map_or(1, |cores| cores.get());
    let (kind, seed, count, name) = match *words {
        ["cases", file] => return Some(fixed::compare_file(&run.command, file)),
        ["replay", what, numbers] => return Some(replay(run, what, &drawn::parse(numbers)?)),
        ["calls", seed, calls, name] => ("calls", seed, calls, Some(name)),
        [kind, seed, count] => (kind, seed, count, None),
        _ => return None,
    };
    let (seed, count) = (number(seed)?, number(count)?);
    match kind {
        "calls" => Some(compare::compare_all(run, seed, count, name, workers)),
        "demand3" => Some(ends::play_all(run, seed, count as u64, workers)),
        "damages" => Some(damages::damage_all(run, seed, count, workers)),
        "listing" => Some(streams::list_all(run, seed, count)),
        "trip" => Some(trips::trip_all(run, seed, count)),
        _ => None,
    }
}

fn replay(run: &Run, what: &str, numbers: &[u64]) -> Result<bool> {
    let command = &run.command;
    let driver = || Driver::start(command);
    match what {
        "demand3" => shrink::replay(&mut ends::Wires { driver: driver()? }, numbers, what),
        "damages" => shrink::replay(&mut damages::Damages { driver: driver()? }, numbers, what),
        "listing" => shrink::replay(&mut streams::Listings { command }, numbers, what),
        "trip" => shrink::replay(&mut trips::Trips { command }, numbers, what),
        name => {
            let compared = compare::compared(name).ok_or_else(|| compare::no_such_call(name))?;
            shrink::replay(&mut compare::Calls { driver: driver()?, compared }, numbers, what)
        }
    }
}
