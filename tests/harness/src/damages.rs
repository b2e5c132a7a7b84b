//! Damage between two flags (02, request 5): what the proved reader tells of a stream before and
//! after it, byte by byte and in slices, against the second program and against the claim.

use crate::driver::Driver;
use crate::request::Request;
use crate::rows::reader_state;
use crate::run::Run;
use crate::show::{hex, values};
use crate::shrink::{show, Difference, Trial};
use crate::told::{text, told_in};
use second::damage::{Damage, Readings, Start};
use second::gen;
use second::message::read_byte;
use second::rng::Rng;
use std::io::{Error, Result};
use std::mem::replace;
use std::sync::atomic::{AtomicUsize, Ordering};
use std::thread;

/// The calls that read a whole stream.
pub const BY_BYTES: &str = "step_stream";
pub const IN_SLICES: &str = "read_stream";

const LONGEST_BUFFER: usize = 40;
/// Damages that the driver is asked about at once.
const BATCH: usize = 250;

struct Case {
    start: Start,
    damage: Damage,
    second: Readings,
    calls: Vec<(&'static str, Request)>,
}

/// What came of a case.
struct Judged {
    with_false_transfer: bool,
    fault: Option<String>,
}

#[derive(Default)]
struct Found {
    with_false_transfer: usize,
    differ: usize,
    /// The shortest case that differs: its streams' length, and its seed.
    smallest: Option<(usize, u64)>,
}

/// Reads the streams of `damages` seeds; tells whether all agree and the claim held in each.
pub fn damage_all(run: &Run, seed: u64, damages: usize, workers: usize) -> Result<bool> {
    let next = AtomicUsize::new(0);
    let found = thread::scope(|scope| {
        let work = || -> Result<Found> {
            let mut driver = Driver::start(&run.command)?;
            let (mut found, mut under_way) = (Found::default(), Vec::new());
            loop {
                let first = next.fetch_add(BATCH, Ordering::Relaxed).min(damages);
                let places = first..damages.min(first + BATCH);
                let seeds = places.map(|place| seed.wrapping_add(place as u64));
                let asked = ask(&mut driver, seeds)?;
                let at_end = asked.is_empty();
                // The driver works at one batch while the one before it is checked.
                for (seed, case) in replace(&mut under_way, asked) {
                    let judged = case.judge(&mut driver)?;
                    found.add(judged, case.damage.whole.len() + case.damage.damaged.len(), seed);
                }
                if at_end {
                    return Ok(found);
                }
            }
        };
        let running: Vec<_> = (0..workers).map(|_| scope.spawn(work)).collect();
        let mut lists = running.into_iter().map(|worker| worker.join().expect("no worker panics"));
        lists.try_fold(Found::default(), |sum, list| list.map(|list| sum.and(list)))
    })?;
    let Found { with_false_transfer, differ, smallest } = found;
    println!(
        "{damages:>9} damages, {differ:>3} differ: byte reader and slice reader, \
         {with_false_transfer} with a transfer that nobody sent"
    );
    if let Some((_, seed)) = smallest {
        let mut rng = Rng::keeping(seed);
        make(&mut rng);
        let trial = &mut Damages { driver: Driver::start(&run.command)? };
        show(run, trial, &rng.drawn(), &format!("damages {seed} 1"), "damages")?;
    }
    Ok(differ == 0)
}

fn ask(driver: &mut Driver, seeds: impl Iterator<Item = u64>) -> Result<Vec<(u64, Case)>> {
    let cases: Vec<(u64, Case)> = seeds.map(|seed| (seed, make(&mut Rng::new(seed)))).collect();
    let mut calls = Vec::new();
    for (_, case) in &cases {
        case.add_calls(driver, &mut calls)?;
    }
    driver.ask(calls);
    Ok(cases)
}

/// A damage and its calls: both streams byte by byte, then both in slices. Each of the readings has
/// a buffer of its own, alike the others.
fn make(rng: &mut Rng) -> Case {
    let room = rng.below(LONGEST_BUFFER + 1);
    let start = gen::start(rng, room);
    let damage = gen::damage(rng, room);
    let second = damage.readings(|stream| start.told(read_byte, rng, stream));
    let mut calls = Vec::new();
    let streams = [&damage.whole, &damage.damaged];
    for stream in streams {
        calls.push((BY_BYTES, reading(&start, rng, stream)));
    }
    for stream in streams {
        let request = reading(&start, rng, stream);
        calls.push((IN_SLICES, request.row("lengths", &slices(rng, stream.len()))));
    }
    Case { start, damage, second, calls }
}

fn reading(start: &Start, rng: &mut Rng, stream: &[u8]) -> Request {
    let request = Request::new().bytes("stream", stream);
    let request = request.bytes("message", &start.buffer_alike(rng));
    request.row("row", &reader_state(&start.reader))
}

/// The lengths of a stream's slices, now and then of a single one.
fn slices(rng: &mut Rng, length: usize) -> Vec<u64> {
    if rng.percent(10) {
        return vec![length as u64];
    }
    let mut lengths = Vec::new();
    let mut left = length;
    while left > 0 {
        let long = rng.between(2, 20);
        // Not 0 first: where nothing but zeros is drawn, this ends.
        let slice = rng.pick(&[1, 0, 1, long, long, long]).min(left);
        lengths.push(slice as u64);
        left -= slice;
    }
    lengths.extend(rng.percent(20).then_some(0));
    lengths
}

fn proved_readings(driver: &mut Driver) -> Result<Readings> {
    let mut next = || {
        let answer = driver.sized_answer()?;
        told_in(&answer).ok_or_else(|| Error::other(format!("no reader tells {}", hex(&answer))))
    };
    Ok(Readings { whole: next()?, damaged: next()? })
}

impl Case {
    fn add_calls(&self, driver: &Driver, calls: &mut Vec<u8>) -> Result<()> {
        for (name, request) in &self.calls {
            driver.call(name)?.add(request, calls);
        }
        Ok(())
    }

    /// Reads the answers to the calls.
    fn judge(&self, driver: &mut Driver) -> Result<Judged> {
        let by_bytes = proved_readings(driver)?;
        let in_slices = proved_readings(driver)?;
        let with_false_transfer = self.damage.tells_false(&by_bytes);
        let fault = self.fault("byte reader", &by_bytes);
        let fault = fault.or_else(|| self.fault("slice reader", &in_slices));
        Ok(Judged { with_false_transfer, fault })
    }

    /// What differs from the second program, or from the claim.
    fn fault(&self, reader: &str, proved: &Readings) -> Option<String> {
        let pairs = [
            ("whole", &self.second.whole, &proved.whole),
            ("damaged", &self.second.damaged, &proved.damaged),
        ];
        if let Some((stream, second, proved)) = pairs.iter().find(|pair| pair.1 != pair.2) {
            let (second, proved) = (text(second), text(proved));
            return Some(format!(
                "  the {reader} differs on the {stream} stream\n  \
                   second program: {second}\n  proved code:    {proved}\n"
            ));
        }
        if self.damage.keeps_before(proved) && self.damage.keeps_after(proved) {
            return None;
        }
        let (whole, damaged) = (text(&proved.whole), text(&proved.damaged));
        Some(format!(
            "  the {reader} does not keep what is before or after\n  \
               told of the whole stream:   {whole}\n  told of the damaged stream: {damaged}\n"
        ))
    }

    fn text(&self) -> String {
        let Start { reader, buffer } = &self.start;
        let Damage { whole, damaged, first, second, second_damaged } = &self.damage;
        format!(
            "    reader: {:?}, {} held of {}\n    buffer: {}\n    \
             whole: {}, flags at {first} and {second}\n    \
             damaged: {}, flags at {first} and {second_damaged}\n",
            reader.phase,
            reader.held,
            buffer.len(),
            values(buffer, 1),
            values(whole, 1),
            values(damaged, 1)
        )
    }
}

impl Found {
    fn add(&mut self, judged: Judged, length: usize, seed: u64) {
        self.with_false_transfer += usize::from(judged.with_false_transfer);
        if judged.fault.is_some() {
            self.differ += 1;
            self.smallest = self.smallest.into_iter().chain([(length, seed)]).min();
        }
    }

    fn and(self, other: Found) -> Found {
        Found {
            with_false_transfer: self.with_false_transfer + other.with_false_transfer,
            differ: self.differ + other.differ,
            smallest: self.smallest.into_iter().chain(other.smallest).min(),
        }
    }
}

/// Damages, one by one.
pub struct Damages {
    pub driver: Driver,
}

impl Trial for Damages {
    fn differs(&mut self, numbers: &[u64]) -> Result<Option<Difference>> {
        let mut rng = Rng::playing(numbers.to_vec());
        let case = make(&mut rng);
        let mut input = Vec::new();
        case.add_calls(&self.driver, &mut input)?;
        self.driver.ask(input.clone());
        let fault = case.judge(&mut self.driver)?.fault;
        let drawn = rng.drawn();
        Ok(fault.map(|fault| Difference { drawn, input, text: case.text() + &fault }))
    }
}

#[cfg(test)]
mod tests {
    use super::*;

    #[test]
    fn zeros_alone_make_a_damage() {
        let case = make(&mut Rng::playing(Vec::new()));
        let names: Vec<&str> = case.calls.iter().map(|call| call.0).collect();
        assert_eq!(names, [BY_BYTES, BY_BYTES, IN_SLICES, IN_SLICES]);
        assert!(case.damage.keeps_before(&case.second) && case.damage.keeps_after(&case.second));
    }
}
