//! Many calls of each function, from a fixed seed, to the driver and to the second program.

use crate::cases::{Case, Compared, Part, COMPARED};
use crate::driver::Driver;
use crate::run::Run;
use crate::shrink::{show, Difference, Trial};
use second::rng::Rng;
use std::collections::{BTreeSet, VecDeque};
use std::io::{Error, Result};
use std::ops::Range;
use std::sync::atomic::{AtomicUsize, Ordering};
use std::sync::Mutex;
use std::thread;

const CHUNK: usize = 5_000;
const BATCH_BYTES: usize = 128 * 1024;
const BATCHES_UNDER_WAY: usize = 3;
/// Places of one part that are shown.
const SHOWN: usize = 4;

/// The answer numbers that were due, and the calls on which the two differ.
#[derive(Default)]
struct Found {
    numbers: BTreeSet<u8>,
    differ: usize,
    /// The shortest of them: its length, and the seed that a run for it alone would have.
    smallest: Option<(usize, u64)>,
}

impl Found {
    fn add(&mut self, other: Found) {
        self.numbers.extend(other.numbers);
        self.differ += other.differ;
        self.smallest = self.smallest.into_iter().chain(other.smallest).min();
    }
}

/// A call by its name.
pub fn compared(name: &str) -> Option<&'static Compared> {
    COMPARED.iter().find(|compared| compared.name == name)
}

/// Compares `calls` calls of each function, or of the one that is named; tells whether all agree.
pub fn compare_all(
    run: &Run,
    seed: u64,
    calls: usize,
    name: Option<&str>,
    workers: usize,
) -> Result<bool> {
    let chosen: Vec<&Compared> = match name {
        Some(name) => vec![compared(name).ok_or_else(|| no_such_call(name))?],
        None => COMPARED.iter().collect(),
    };
    let found = compare_chosen(run, &chosen, seed, calls, workers)?;
    for (compared, found) in chosen.iter().zip(&found) {
        let numbers: Vec<String> = found.numbers.iter().map(u8::to_string).collect();
        let answers = if numbers.is_empty() { "" } else { ", with answers " };
        let (differ, name) = (found.differ, compared.name);
        println!("{calls:>9} calls, {differ:>3} differ: {name}{answers}{}", numbers.join(" "));
        if let Some((_, seed)) = found.smallest {
            let trial = &mut Calls { driver: Driver::start(&run.command)?, compared };
            let mut rng = Rng::keeping(seed_of(name).wrapping_add(seed));
            (compared.make)(&mut rng);
            show(run, trial, &rng.drawn(), &format!("calls {seed} 1 {name}"), name)?;
        }
    }
    Ok(found.iter().all(|found| found.differ == 0))
}

pub fn no_such_call(name: &str) -> Error {
    Error::other(format!("no call '{name}' is compared"))
}

fn compare_chosen(
    run: &Run,
    chosen: &[&Compared],
    seed: u64,
    calls: usize,
    workers: usize,
) -> Result<Vec<Found>> {
    let chunks = calls.div_ceil(CHUNK);
    let next = AtomicUsize::new(0);
    let found: Vec<Mutex<Found>> = chosen.iter().map(|_| Mutex::default()).collect();
    thread::scope(|scope| {
        let work = || -> Result<()> {
            let mut driver = Driver::start(&run.command)?;
            loop {
                let job = next.fetch_add(1, Ordering::Relaxed);
                if job >= chunks * chosen.len() {
                    return Ok(());
                }
                let (place, first) = (job / chunks, job % chunks * CHUNK);
                let places = first..calls.min(first + CHUNK);
                let chunk = compare_chunk(&mut driver, chosen[place], seed, places)?;
                found[place].lock().expect("no worker failed").add(chunk);
            }
        };
        let running: Vec<_> = (0..workers).map(|_| scope.spawn(work)).collect();
        running.into_iter().try_for_each(|worker| worker.join().expect("no worker panics"))
    })?;
    Ok(found.into_iter().map(|found| found.into_inner().expect("no worker failed")).collect())
}

/// What a name adds to the seed of its calls.
fn seed_of(name: &str) -> u64 {
    let fold = |sum: u64, byte| (sum ^ u64::from(byte)).wrapping_mul(0x0100_0000_01B3);
    name.bytes().fold(0xCBF2_9CE4_8422_2325, fold)
}

/// Cases with the seed that a run for each alone would have.
type Batch = Vec<(u64, Case)>;

fn compare_chunk(
    driver: &mut Driver,
    compared: &Compared,
    seed: u64,
    places: Range<usize>,
) -> Result<Found> {
    // Each call has a seed of its own, so that one call can be made again alone.
    let mut seeds = places.map(|place| seed.wrapping_add(place as u64));
    let mut found = Found::default();
    let mut under_way: VecDeque<Batch> = VecDeque::new();
    let mut room = Vec::new();
    loop {
        let batch = ask_batch(driver, compared, &mut seeds)?;
        let at_end = batch.is_empty();
        under_way.extend((!at_end).then_some(batch));
        while under_way.len() >= BATCHES_UNDER_WAY || (at_end && !under_way.is_empty()) {
            for (seed, case) in under_way.pop_front().into_iter().flatten() {
                found.numbers.extend(case.answer_number());
                if !read_answer(driver, &case, &mut room)?.is_empty() {
                    found.differ += 1;
                    let this = (case.request.bytes.len(), seed);
                    found.smallest = found.smallest.into_iter().chain([this]).min();
                }
            }
        }
        if at_end {
            return Ok(found);
        }
    }
}

fn ask_batch(
    driver: &mut Driver,
    compared: &Compared,
    seeds: &mut impl Iterator<Item = u64>,
) -> Result<Batch> {
    let call = driver.call(compared.name)?;
    let of_name = seed_of(compared.name);
    let mut batch = Vec::new();
    let mut calls = Vec::with_capacity(BATCH_BYTES);
    while calls.len() < BATCH_BYTES {
        let Some(seed) = seeds.next() else {
            break;
        };
        let case = (compared.make)(&mut Rng::new(of_name.wrapping_add(seed)));
        call.add(&case.request, &mut calls);
        batch.push((seed, case));
    }
    if !batch.is_empty() {
        driver.ask(calls);
    }
    Ok(batch)
}

/// What the driver told in place of the part that was due.
pub struct Other<'a> {
    due: &'a Part,
    told: Vec<u8>,
}

/// Reads one answer; `room` is for a part, kept from call to call.
pub fn read_answer<'a>(
    driver: &mut Driver,
    case: &'a Case,
    room: &mut Vec<u8>,
) -> Result<Vec<Other<'a>>> {
    let mut others = Vec::new();
    for due in &case.expected {
        room.resize(due.bytes.len(), 0);
        driver.answer_to(room)?;
        if due.bytes != *room {
            others.push(Other { due, told: room.clone() });
        }
    }
    Ok(others)
}

impl Other<'_> {
    /// The places that differ, or the first of them.
    pub fn text(&self) -> String {
        let Other { due, told } = self;
        let pairs = due.bytes.chunks(due.width).zip(told.chunks(due.width)).enumerate();
        let differ: Vec<_> = pairs.filter(|(_, (due, told))| due != told).collect();
        let shown = differ.iter().take(SHOWN).map(|(place, (second, proved))| {
            let (name, second, proved) = (due.name, due.text_of(second), due.text_of(proved));
            format!("  {name} differs at {place}: second program {second}, proved code {proved}\n")
        });
        let more = differ.len().saturating_sub(SHOWN);
        let rest = (more > 0).then(|| format!("  and at {more} places more\n"));
        shown.chain(rest).collect()
    }
}

/// Calls of one function, one by one.
pub struct Calls {
    pub driver: Driver,
    pub compared: &'static Compared,
}

impl Trial for Calls {
    fn differs(&mut self, numbers: &[u64]) -> Result<Option<Difference>> {
        let mut rng = Rng::playing(numbers.to_vec());
        let case = (self.compared.make)(&mut rng);
        self.driver.ask_one(self.compared.name, &case.request)?;
        let others = read_answer(&mut self.driver, &case, &mut Vec::new())?;
        if others.is_empty() {
            return Ok(None);
        }
        let differ: String = others.iter().map(Other::text).collect();
        let text = case.request.text() + &differ;
        drop(others);
        Ok(Some(Difference { drawn: rng.drawn(), input: case.request.bytes, text }))
    }
}

#[cfg(test)]
mod tests {
    use super::*;
    use crate::cases::{number, row};

    #[test]
    fn a_difference_is_told_by_its_places() {
        let due = row("row", &[1, 2, 300]);
        let told = row("", &[1, 0, 301]).bytes;
        let text = "  row differs at 1: second program 2, proved code 0\n  \
                      row differs at 2: second program 300, proved code 301\n";
        assert_eq!(Other { due: &due, told }.text(), text);
        let due = number(20);
        let text = "  number differs at 0: second program 20, proved code 21\n";
        assert_eq!(Other { due: &due, told: vec![21] }.text(), text);
    }

    #[test]
    fn of_many_places_the_first_are_told() {
        let due = row("row", &[7; 6]);
        let text = Other { due: &due, told: vec![0; 48] }.text();
        assert_eq!(text.lines().count(), SHOWN + 1);
        assert!(text.ends_with("proved code 0\n  and at 2 places more\n"), "{text}");
    }

    #[test]
    fn a_name_has_seeds_of_its_own() {
        assert_ne!(seed_of("take"), seed_of("send"));
        assert_ne!(seed_of("step_in"), seed_of("in_step"));
    }
}
