//! A whole input in one call, and what it told counted.

use crate::cases::{bytes, number, row, Case};
use crate::request::Request;
use second::gen;
use second::message::{Event, LinkEvent, MessageReader};
use second::numbers::{DONE, OUTPUT_SHORT};
use second::receiver::{Kind, Receiver};
use second::rng::Rng;
use second::slice::{read_on, Listener};

const PLACES: usize = 9;
const BYTES: usize = 8;
const MESSAGES: usize = 8;

fn count(tally: &mut [u64], (place, bytes): (usize, usize)) {
    tally[place] = tally[place].wrapping_add(1);
    tally[BYTES] = tally[BYTES].wrapping_add(bytes as u64);
}

/// The place that counts an event of the reader alone, and the payload's bytes.
fn event_place(event: &Event) -> (usize, usize) {
    match *event {
        Event::Nothing => (0, 0),
        Event::Message { start, end } => (1, end - start),
        Event::Query => (5, 0),
        Event::Notice { .. } => (6, 0),
        Event::Refused(_) => (7, 0),
    }
}

/// The place that counts what came out above a receiver, and the cargo's bytes.
fn link_event_place(event: &LinkEvent) -> (usize, usize) {
    let LinkEvent::Transfer(answer) = event else {
        return match event {
            LinkEvent::Query => (5, 0),
            LinkEvent::Notice { .. } => (6, 0),
            LinkEvent::Refused(_) => (7, 0),
            _ => (0, 0),
        };
    };
    match answer.kind {
        Kind::Delivered { length, .. } => (1, length),
        Kind::Part => (2, 0),
        Kind::Null => (3, 0),
        Kind::Refused => (4, 0),
    }
}

/// A tally of numbers that may wrap, now and then too short or longer than it must be.
fn tally(rng: &mut Rng) -> Vec<u64> {
    let places = rng.pick(&[PLACES, PLACES, PLACES, PLACES + 1, PLACES - 1, 0]);
    let small = rng.percent(50);
    (0..places).map(|_| if small { 0 } else { u64::MAX - rng.below(4) as u64 }).collect()
}

pub fn tally_messages(rng: &mut Rng) -> Case {
    let limit = rng.between(5, 40);
    let length = rng.between(0, 40);
    let mut message = rng.bytes(length);
    let input = gen::uart_stream(rng, MESSAGES, limit, 4, message.len());
    let mut tally = tally(rng);
    let request = Request::new().bytes("input", &input).bytes("message", &message);
    let request = request.row("tally", &tally);
    let told = if tally.len() < PLACES { OUTPUT_SHORT } else { DONE };
    let mut at = if told == DONE { 0 } else { input.len() };
    let mut reader = MessageReader::fresh();
    while at < input.len() {
        let (event, next) = read_on(&mut reader, &mut message, &input, at);
        count(&mut tally, event_place(&event));
        at = next;
    }
    request.expects([number(told), bytes("message", message), row("tally", &tally)])
}

pub fn tally_stream(rng: &mut Rng) -> Case {
    let small = rng.pick(&[4, 5, 6, 12, 24, 40]);
    let limit = if rng.percent(1) { rng.pick(&[32_766, 32_767]) } else { small };
    let channels = rng.pick(&[0, 1, 2, 4, 32, 33]);
    let receiver = Receiver::fresh(limit, channels);
    let length = rng.between(0, 60);
    let message = rng.bytes(length);
    let length = gen::cargo_buffer_length(rng, &receiver);
    let input =
        gen::uart_stream(rng, MESSAGES, limit.min(40), channels.clamp(1, 32), message.len());
    let mut tally = tally(rng);
    let mut ours =
        Listener { receiver, reader: MessageReader::fresh(), message, cargo: rng.bytes(length) };
    let request = Request::new().number("limit", limit).number("count", channels);
    let request = request.bytes("input", &input).bytes("message", &ours.message);
    let request = request.bytes("cargo", &ours.cargo).row("tally", &tally);
    let told = if tally.len() < PLACES { OUTPUT_SHORT } else { DONE };
    let mut at = if told == DONE { 0 } else { input.len() };
    while at < input.len() {
        let (event, next) = ours.listen_on(&input, at);
        count(&mut tally, link_event_place(&event));
        at = next;
    }
    let (message, cargo) = (bytes("message", ours.message), bytes("cargo", ours.cargo));
    request.expects([number(told), message, cargo, row("tally", &tally)])
}
