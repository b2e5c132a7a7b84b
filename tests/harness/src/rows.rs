//! States as the rows of numbers of include/boherlin.h.

use second::message::{Event, LinkEvent, MessageReader, Phase};
use second::permit::Permit;
use second::receiver::{Answer, Incoming, Kind, Receiver};
use second::rng::Rng;
use second::sender::Sender;

pub const RECEIVER_STATE: usize = 134;
pub const RECEIVER_ROW: usize = 140;
pub const SENDER_STATE: usize = 39;
pub const SENDER_ROW: usize = 40;
pub const PERMIT_ROW: usize = 3;
pub const STEP_ROW: usize = 4;
pub const READER_ROW: usize = 5;
pub const LISTENER_ROW: usize = 145;

/// A receiver's 134 numbers.
pub fn receiver_state(state: &Receiver) -> Vec<u64> {
    let channels = &state.channels;
    let mut row: Vec<u64> = Vec::with_capacity(LISTENER_ROW);
    row.extend(channels.iter().map(|channel| u64::from(channel.expected)));
    row.extend(channels.iter().map(|channel| u64::from(channel.heard)));
    row.extend(channels.iter().map(|channel| u64::from(channel.missing)));
    row.extend(channels.iter().map(|channel| u64::from(channel.repeats)));
    row.extend([state.limit as u64, state.count as u64]);
    row.extend(load_numbers(state.under_way));
    row
}

/// With what its last answer told.
pub fn receiver_row(state: &Receiver, answer: &[u64]) -> Vec<u64> {
    let mut row = receiver_state(state);
    row.extend(answer);
    row
}

/// A receiver's cargo under way.
pub fn load_numbers(cargo: Option<Incoming>) -> [u64; 4] {
    under_way(cargo.map(|cargo| [cargo.channel, cargo.total, cargo.held]))
}

fn under_way(cargo: Option<[usize; 3]>) -> [u64; 4] {
    cargo.map_or([0; 4], |[channel, total, done]| [1, channel as u64, total as u64, done as u64])
}

/// What an answer tells, in six numbers.
pub fn answer_numbers(answer: &Answer) -> [u64; 6] {
    let (kind, channel, length) = match answer.kind {
        Kind::Delivered { channel, length } => (0, channel, length),
        Kind::Part => (1, 0, 0),
        Kind::Null => (2, 0, 0),
        Kind::Refused => (3, 0, 0),
    };
    let (number, gap) = (u64::from(answer.number), u64::from(answer.gap));
    [kind, number, gap, u64::from(answer.dropped), channel as u64, length as u64]
}

/// A sender's 39 numbers.
pub fn sender_state(state: &Sender) -> Vec<u64> {
    let mut row: Vec<u64> = Vec::with_capacity(SENDER_ROW);
    row.extend(state.numbers.iter().map(|&number| u64::from(number)));
    row.extend([state.limit as u64, state.count as u64]);
    let cargo = state.under_way.map(|cargo| [cargo.channel, cargo.total, cargo.sent]);
    row.extend(under_way(cargo));
    row.push(state.largest_transfer as u64);
    row
}

/// With the bytes that the last call wrote.
pub fn sender_row(state: &Sender, written: u64) -> Vec<u64> {
    let mut row = sender_state(state);
    row.push(written);
    row
}

pub fn permit_numbers(permit: Permit) -> [u64; PERMIT_ROW] {
    match permit {
        Permit::None => [0; PERMIT_ROW],
        Permit::Held { room, came } => [1, u64::from(room), came],
    }
}

pub fn reader_state(state: &MessageReader) -> Vec<u64> {
    let phase = match state.phase {
        Phase::Outside => 0,
        Phase::Inside => 1,
        Phase::Escaped => 2,
        Phase::Overlong => 3,
    };
    vec![phase, state.held as u64]
}

/// The answer's number, and an event's kind and value.
pub fn event_numbers(event: &Event) -> (u8, [u64; 2]) {
    match *event {
        Event::Nothing => (0, [0, 0]),
        Event::Message { start, end } => (0, [1, (end - start) as u64]),
        Event::Query => (0, [2, 0]),
        Event::Notice { room } => (0, [3, u64::from(room)]),
        Event::Refused(number) => (number, [4, u64::from(number)]),
    }
}

/// The answer's number, the receiver's answer, and the kind and value of what a listener tells.
pub fn link_event_numbers(event: &LinkEvent) -> (u8, [u64; 6], [u64; 2]) {
    match *event {
        LinkEvent::Nothing => (0, [0; 6], [0, 0]),
        LinkEvent::Transfer(answer) => (answer.number, answer_numbers(&answer), [1, 0]),
        LinkEvent::Query => (0, [0; 6], [2, 0]),
        LinkEvent::Notice { room } => (0, [0; 6], [3, u64::from(room)]),
        LinkEvent::Refused(number) => (number, [0; 6], [4, u64::from(number)]),
    }
}

/// Other numbers for the same receiver: multiples of a field's range added, any flag for true,
/// and anything for the cargo where none is under way.
pub fn disguise_receiver(rng: &mut Rng, row: &mut [u64]) {
    for number in &mut row[..32] {
        *number += 256 * rng.below(1000) as u64;
    }
    for flag in &mut row[32..64] {
        *flag *= 1 + rng.below(1000) as u64;
    }
    for count in &mut row[64..128] {
        *count += (rng.below(1000) as u64) << 32;
    }
    disguise_cargo(rng, &mut row[130..134]);
}

pub fn disguise_sender(rng: &mut Rng, row: &mut [u64]) {
    for number in &mut row[..32] {
        *number += 256 * rng.below(1000) as u64;
    }
    disguise_cargo(rng, &mut row[34..38]);
}

pub fn disguise_permit(rng: &mut Rng, row: &mut [u64]) {
    if row[0] != 0 {
        row[0] = rng.pick(&[2, 256, 1 << 32, u64::MAX]);
        row[1] += rng.pick(&[0, 1, 999, (1 << 48) - 1]) << 16;
    } else {
        row[1..].fill_with(|| rng.next_u64());
    }
}

fn disguise_cargo(rng: &mut Rng, cargo: &mut [u64]) {
    if cargo[0] != 0 {
        cargo[0] = 1 + rng.below(1000) as u64;
    } else {
        cargo[1..].fill_with(|| rng.next_u64());
    }
}
