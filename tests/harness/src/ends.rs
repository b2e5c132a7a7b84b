//! Demand 3 played by the proved sender and receiver, against the wire's own account.

use crate::driver::Driver;
use crate::request::Request;
use crate::rows::{receiver_state, sender_state, RECEIVER_ROW, SENDER_ROW};
use crate::run::Run;
use crate::show::values;
use crate::shrink::{show, Difference, Trial};
use second::header::HEADER_BYTES;
use second::play::{check, drawn_script, Ending, Ends, Fate, Script, Shipment};
use second::receiver::Receiver;
use second::rng::Rng;
use second::sender::Sender;
use std::io::Result;
use std::sync::atomic::{AtomicU64, Ordering};
use std::thread;

const DELIVERED: u64 = 0;
const KIND: usize = 134;
const CARGO_CHANNEL: usize = 138;
const CARGO_LENGTH: usize = 139;
const WRITTEN: usize = 39;

/// Both ends as rows, with one output and one cargo buffer lent throughout.
struct ProvedEnds<'a> {
    driver: &'a mut Driver,
    sender: Vec<u64>,
    receiver: Vec<u64>,
    count: usize,
    out: Vec<u8>,
    cargo: Vec<u8>,
}

impl ProvedEnds<'_> {
    fn fresh<'a>(driver: &'a mut Driver, script: &Script) -> ProvedEnds<'a> {
        let Script { limit, count, largest_transfer, .. } = *script;
        let mut sender = sender_state(&Sender::fresh(limit, count, largest_transfer));
        let mut receiver = receiver_state(&Receiver::fresh(limit, count));
        sender.resize(SENDER_ROW, 0);
        receiver.resize(RECEIVER_ROW, 0);
        let out = vec![0; largest_transfer];
        ProvedEnds { driver, sender, receiver, count, out, cargo: vec![0; limit - HEADER_BYTES] }
    }

    fn call(&mut self, name: &str, request: Request) -> u8 {
        self.driver.ask_one(name, &request).expect("the driver takes calls");
        self.bytes(1)[0]
    }

    fn bytes(&mut self, size: usize) -> Vec<u8> {
        self.driver.answer(size).expect("the driver answers")
    }

    fn row(&mut self, places: usize) -> Vec<u64> {
        let bytes = self.bytes(8 * places);
        let number = |eight: &[u8]| u64::from_le_bytes(eight.try_into().expect("eight bytes"));
        bytes.chunks_exact(8).map(number).collect()
    }
}

impl Ends for ProvedEnds<'_> {
    fn send(&mut self, channel: usize, cargo: &[u8]) -> std::result::Result<Vec<u8>, u8> {
        let request = Request::new().row("row", &self.sender).number("channel", channel);
        let number = self.call("send", request.bytes("cargo", cargo).bytes("out", &self.out));
        self.sender = self.row(SENDER_ROW);
        self.out = self.bytes(self.out.len());
        match number {
            0 => Ok(self.out[..self.sender[WRITTEN] as usize].to_vec()),
            number => Err(number),
        }
    }

    fn abandon(&mut self) -> u8 {
        let number = self.call("abandon", Request::new().row("row", &self.sender));
        self.sender = self.row(SENDER_ROW);
        number
    }

    fn take(&mut self, transfer: &[u8]) -> Option<(usize, Vec<u8>)> {
        let request = Request::new().row("row", &self.receiver).bytes("transfer", transfer);
        let number = self.call("take", request.bytes("cargo", &self.cargo));
        self.receiver = self.row(RECEIVER_ROW);
        self.cargo = self.bytes(self.cargo.len());
        if number != 0 || self.receiver[KIND] != DELIVERED {
            return None;
        }
        let length = self.receiver[CARGO_LENGTH] as usize;
        Some((self.receiver[CARGO_CHANNEL] as usize, self.cargo[..length].to_vec()))
    }

    fn counts(&mut self) -> (Vec<u32>, Vec<u32>) {
        let count = self.count;
        let request = Request::new().row("row", &self.receiver);
        self.call("copy_counts", request.counts("counts", &vec![0; 2 * count]));
        let bytes = self.bytes(8 * count);
        let number = |four: &[u8]| u32::from_le_bytes(four.try_into().expect("four bytes"));
        let mut missing: Vec<u32> = bytes.chunks_exact(4).map(number).collect();
        let repeats = missing.split_off(count);
        (missing, repeats)
    }
}

/// Plays the scripts of `scripts` seeds; tells whether demand 3 held in each.
pub fn play_all(run: &Run, seed: u64, scripts: u64, workers: usize) -> Result<bool> {
    let next = AtomicU64::new(0);
    // the size of each script that differs, and its seed
    let mut differing: Vec<(usize, u64)> = thread::scope(|scope| {
        let work = || -> Result<Vec<(usize, u64)>> {
            let mut driver = Driver::start(&run.command)?;
            let mut differing = Vec::new();
            loop {
                let place = next.fetch_add(1, Ordering::Relaxed);
                if place >= scripts {
                    return Ok(differing);
                }
                let seed = seed.wrapping_add(place);
                let script = drawn_script(&mut Rng::new(seed));
                if check(&script, &mut ProvedEnds::fresh(&mut driver, &script)).is_err() {
                    differing.push((script_bytes(&script).len(), seed));
                }
            }
        };
        let running: Vec<_> = (0..workers).map(|_| scope.spawn(work)).collect();
        let lists = running.into_iter().map(|worker| worker.join().expect("no worker panics"));
        lists.collect::<Result<Vec<_>>>().map(|lists| lists.concat())
    })?;
    println!("{scripts:>9} wires, {:>3} differ: demand 3", differing.len());
    differing.sort();
    if let Some(&(_, seed)) = differing.first() {
        let mut rng = Rng::keeping(seed);
        drawn_script(&mut rng);
        let trial = &mut Wires { driver: Driver::start(&run.command)? };
        show(run, trial, &rng.drawn(), &format!("demand3 {seed} 1"), "demand3")?;
    }
    Ok(differing.is_empty())
}

/// A script as bytes: its settings; then a shipment is a byte, one for each transfer and one for
/// each copy of it that comes, and the cargo.
fn script_bytes(script: &Script) -> Vec<u8> {
    let settings = [script.limit, script.count, script.largest_transfer];
    let mut bytes: Vec<u8> = settings.iter().flat_map(|setting| setting.to_le_bytes()).collect();
    for Shipment { channel, cargo, fates, .. } in &script.shipments {
        bytes.push(*channel as u8);
        for fate in fates {
            match fate {
                Fate::Lost => bytes.push(1),
                Fate::Arrives { surplus } => bytes.resize(bytes.len() + 1 + surplus, 0),
            }
        }
        bytes.extend(cargo);
    }
    bytes
}

fn script_text(script: &Script) -> String {
    let Script { limit, count, largest_transfer, shipments } = script;
    let lines = shipments.iter().map(|Shipment { channel, cargo, fates, ending }| {
        let fates = fates.iter().map(|fate| match fate {
            Fate::Lost => ", lost".to_string(),
            Fate::Arrives { surplus: 0 } => ", arrives".to_string(),
            Fate::Arrives { surplus } => format!(", arrives and {surplus} times more"),
        });
        let (fates, cargo) = (fates.collect::<String>(), values(cargo, 1));
        let end = if *ending == Ending::Finished { "finished" } else { "abandoned" };
        format!("    on channel {channel} {cargo}{fates}, {end}\n")
    });
    let settings =
        format!("    limit {limit}, count {count}, largest transfer {largest_transfer}\n");
    settings + &lines.collect::<String>()
}

/// Scripts, one by one.
pub struct Wires {
    pub driver: Driver,
}

impl Trial for Wires {
    fn differs(&mut self, numbers: &[u64]) -> Result<Option<Difference>> {
        let mut rng = Rng::playing(numbers.to_vec());
        let script = drawn_script(&mut rng);
        let fault = check(&script, &mut ProvedEnds::fresh(&mut self.driver, &script)).err();
        Ok(fault.map(|fault| {
            let text = format!("{}  {fault}\n", script_text(&script));
            Difference { drawn: rng.drawn(), input: script_bytes(&script), text }
        }))
    }
}
