//! For the odometer: states, cargoes and answers that meet them, and UART streams.

use super::{cargo, noise_before_the_first_flag, push_message, push_other, spoil_transfer, WIDE};
use crate::header::LARGEST_LENGTH;
use crate::listing::Listing;
use crate::message::{write_message, Hearer, SHTP_ID};
use crate::numbers::DONE;
use crate::odometer::{total_cargo, Odometer, HALF_ROUND, LARGEST_CIRCUMFERENCE};
use crate::receiver::{Answer, Kind, MOST_CHANNELS};
use crate::rng::Rng;
use crate::sender::{abandon, send, Sender};

/// Room for a total in one transfer.
const WHOLE_TOTAL: usize = 9;
const LONGEST_TRANSFER: usize = 24;

/// An odometer's state, often one where the next cargo takes the distance to 64 bits or past them.
pub fn odometer(rng: &mut Rng) -> Odometer {
    let circumference = circumference(rng);
    Odometer {
        channel: odometer_channel(rng),
        circumference,
        based: rng.percent(75),
        last: edge_total(rng),
        turns: turns(rng, u64::MAX / circumference.max(1)),
    }
}

fn circumference(rng: &mut Rng) -> u64 {
    let any = rng.next_u64();
    match rng.below(8) {
        0 => rng.pick(&[0, LARGEST_CIRCUMFERENCE + 1, u64::MAX, any]),
        1 | 2 => rng.pick(&[1, LARGEST_CIRCUMFERENCE]),
        3 => rng.pick(&[1_600, 6_400]),
        _ => 1 + any % LARGEST_CIRCUMFERENCE,
    }
}

fn odometer_channel(rng: &mut Rng) -> usize {
    if rng.percent(80) {
        rng.below(MOST_CHANNELS)
    } else {
        let wide = rng.pick(&WIDE);
        rng.pick(&[MOST_CHANNELS, 255, wide])
    }
}

fn edge_total(rng: &mut Rng) -> u32 {
    let any = rng.next_u64() as u32;
    rng.pick(&[0, 1, HALF_ROUND - 1, HALF_ROUND, u32::MAX - 1, u32::MAX, any, any])
}

/// Turns near the most that the distance has room for.
fn turns(rng: &mut Rng, most: u64) -> u64 {
    let half = u64::from(HALF_ROUND);
    match rng.below(8) {
        0 => rng.pick(&[0, u64::MAX]),
        1 => rng.next_u64(),
        2 | 3 => rng.below(1_000_000) as u64,
        4 => most.saturating_add(rng.pick(&[1, 2])),
        _ => most - rng.pick(&[0, 1, 2, half - 2, half - 1, half]).min(most),
    }
}

/// A cargo of an odometer's channel: most often a total at or near an edge of what it may advance
/// by, else of another length or kind.
pub fn totals_cargo(rng: &mut Rng, odometer: &Odometer) -> Vec<u8> {
    let mut cargo = total_cargo(odometer.last.wrapping_add(difference(rng)));
    match rng.below(10) {
        0 => cargo.resize(rng.pick(&[0, 4, 6]), 0),
        1 => cargo[0] = rng.pick(&[0, 2, 255]),
        _ => {}
    }
    cargo
}

fn difference(rng: &mut Rng) -> u32 {
    let some = rng.below(5_000) as u32;
    match rng.below(10) {
        0 => 0,
        1 => 1,
        2 => HALF_ROUND - 1,
        3 => HALF_ROUND,
        4 => u32::MAX - some,
        5 => u32::MAX,
        6 => rng.next_u64() as u32,
        _ => some,
    }
}

/// A receiver's answer and the cargo buffer behind it: most often a cargo delivered on the
/// odometer's channel, now and then in a buffer shorter than the length told.
pub fn answer_for(rng: &mut Rng, odometer: &Odometer) -> (Answer, Vec<u8>) {
    let mut buffer = totals_cargo(rng, odometer);
    let length = buffer.len();
    match rng.below(4) {
        0 => buffer.truncate(rng.below(length + 1)),
        1 => buffer.resize(length + rng.below(9), 1),
        _ => {}
    }
    let channel = if rng.percent(80) { odometer.channel } else { odometer_channel(rng) };
    let delivered = Kind::Delivered { channel, length };
    let kind = rng.pick(&[delivered, delivered, delivered, Kind::Part, Kind::Null, Kind::Refused]);
    let number = if kind == Kind::Refused { rng.pick(&[2, 20, 21]) } else { DONE };
    (Answer { kind, number, gap: rng.byte(), dropped: rng.percent(20) }, buffer)
}

/// The hub of a trip and what became of its transfers, heard along so that totals stay near those
/// of the trip.
struct Trip {
    sender: Sender,
    stream: Vec<u8>,
    listing: Listing,
    odometer: Odometer,
}

/// A UART stream of up to `most` cargoes, for a trip on this channel: totals that rise, stay and
/// fall, and what is no total, on it and beside it; transfers lost, repeated and damaged; messages
/// that share a flag.
pub fn trip_stream(rng: &mut Rng, channel: usize, most: usize) -> Vec<u8> {
    let any = rng.between(WHOLE_TOTAL, LONGEST_TRANSFER);
    let largest_transfer = rng.pick(&[5, 7, 7, WHOLE_TOTAL, any]);
    let mut trip = Trip {
        sender: Sender::fresh(LARGEST_LENGTH, MOST_CHANNELS, largest_transfer),
        stream: noise_before_the_first_flag(rng),
        listing: Listing::hearing_by(Hearer::RIGHT),
        odometer: Odometer { last: edge_total(rng), ..Odometer::fresh(channel, 1) },
    };
    for _ in 0..rng.between(1, most) {
        let beside = rng.percent(25);
        let channel = if beside { rng.below(MOST_CHANNELS) } else { channel };
        let cargo = if beside && rng.percent(50) {
            cargo(rng, 2 * LONGEST_TRANSFER)
        } else {
            totals_cargo(rng, &trip.odometer)
        };
        trip.ship(rng, channel, &cargo);
    }
    trip.stream
}

impl Trip {
    /// Sends a cargo, unless it is empty and cannot be sent; seldom not to its end.
    fn ship(&mut self, rng: &mut Rng, channel: usize, cargo: &[u8]) {
        let mut out = [0; LONGEST_TRANSFER];
        loop {
            let (number, written) = send(&mut self.sender, channel, cargo, &mut out);
            if number != DONE {
                return;
            }
            self.carry(rng, out[..written].to_vec());
            if rng.percent(3) {
                abandon(&mut self.sender);
            }
            if self.sender.under_way.is_none() {
                return;
            }
        }
    }

    fn carry(&mut self, rng: &mut Rng, mut transfer: Vec<u8>) {
        let heard = self.stream.len();
        let arrivals = rng.pick(&[0, 1, 1, 1, 1, 1, 1, 1, 1, 2]);
        if rng.percent(4) {
            spoil_transfer(rng, &mut transfer);
        }
        for _ in 0..arrivals {
            push_message(rng, &mut self.stream, SHTP_ID, &transfer);
        }
        if rng.percent(8) {
            push_other(rng, &mut self.stream, LONGEST_TRANSFER);
        }
        for &byte in &self.stream[heard..] {
            let closed = self.listing.take_byte(byte);
            if let Some((channel, cargo)) = closed.and_then(|closed| closed.cargo) {
                self.odometer.hear(channel, cargo);
            }
        }
    }
}

/// A UART stream of these totals, each in one transfer, of which none is lost.
pub fn totals_stream(channel: usize, totals: impl IntoIterator<Item = u32>) -> Vec<u8> {
    let mut sender = Sender::fresh(LARGEST_LENGTH, MOST_CHANNELS, WHOLE_TOTAL);
    let (mut transfer, mut message) = ([0; WHOLE_TOTAL], [0; 3 + 2 * WHOLE_TOTAL]);
    let mut stream = Vec::new();
    for total in totals {
        let (_, sent) = send(&mut sender, channel, &total_cargo(total), &mut transfer);
        let (_, written) = write_message(SHTP_ID, &transfer[..sent], &mut message);
        stream.extend(&message[..written]);
    }
    stream
}

/// A UART stream of some ten megabytes whose distance passes 64 bits at 10,000 mm. In the largest
/// steps there is room for 858,993 of them and for 986,983,484 turns: the stream takes one step
/// more, then those turns, then one turn more, then none.
pub fn trip_past_64_bits(channel: usize) -> Vec<u8> {
    const STEPS: u32 = 858_993;
    const LEFT: u32 = 986_983_484;
    let after = |steps: u32| steps.wrapping_mul(HALF_ROUND - 1);
    let end = after(STEPS).wrapping_add(LEFT);
    totals_stream(channel, (0..=STEPS + 1).map(after).chain([end, end.wrapping_add(1), end]))
}
