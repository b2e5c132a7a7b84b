//! Compared calls of the message writers, the message reader and the listener.

use crate::cases::*;
use crate::receivers::receiver_and_row;
use crate::request::Request;
use crate::rows::*;
use second::gen;
use second::message::{self, MessageReader, ESCAPE, FLAG};
use second::numbers::UNSOUND;
use second::rng::Rng;
use second::slice::{read_on, Listener};

/// The most in one input, of which a call reads one.
const MESSAGES: usize = 4;

pub fn write_case(id: u8, payload: &[u8], mut out: Vec<u8>) -> Case {
    let request = Request::new().number("id", usize::from(id));
    let request = request.bytes("payload", payload).bytes("out", &out);
    let told = message::write_message(id, payload, &mut out);
    request.expects(written(told, out))
}

pub fn write(rng: &mut Rng) -> Case {
    let any = rng.byte();
    let id = rng.pick(&[0, 1, 1, 2, any]);
    let payload = gen::cargo(rng, 80);
    let escaped = payload.iter().filter(|byte| [FLAG, ESCAPE].contains(byte)).count();
    let length = gen::lent_length(rng, 3 + payload.len() + escaped);
    write_case(id, &payload, rng.bytes(length))
}

pub fn write_query_case(mut out: Vec<u8>) -> Case {
    let request = Request::new().bytes("out", &out);
    let told = message::write_query(&mut out);
    request.expects(written(told, out))
}

pub fn write_query(rng: &mut Rng) -> Case {
    let length = gen::lent_length(rng, 3);
    write_query_case(rng.bytes(length))
}

pub fn write_notice_case(room: u16, mut out: Vec<u8>) -> Case {
    let request = Request::new().number("room", usize::from(room)).bytes("out", &out);
    let told = message::write_notice(room, &mut out);
    request.expects(written(told, out))
}

pub fn write_notice(rng: &mut Rng) -> Case {
    let mut byte = || rng.pick(&[FLAG, ESCAPE, 0, 255, 0x5E]);
    let edge = u16::from_le_bytes([byte(), byte()]);
    let any = rng.next_u64() as u16;
    let room = rng.pick(&[any, edge]);
    let length = gen::lent_length(rng, 7);
    write_notice_case(room, rng.bytes(length))
}

pub fn outside(_: &mut Rng) -> Case {
    Request::new().expects([row("reader", &reader_state(&MessageReader::fresh()))])
}

/// A reader, often as a flag leaves it, with a buffer that may hold the start of a message.
fn reader_and_buffer(rng: &mut Rng) -> (MessageReader, Vec<u8>) {
    let length = rng.below(40);
    let mut bytes = rng.bytes(length);
    if let Some(id) = bytes.first_mut() {
        *id = rng.pick(&[0, 1, 1, 2, *id]);
    }
    let unsound = rng.percent(10);
    let mut state = gen::message_reader(rng, length, !unsound);
    if rng.percent(20) {
        state.held = rng.below(5);
    }
    if rng.percent(20) {
        state = MessageReader::open_and_empty();
    }
    (state, bytes)
}

/// A row that means this reader takes a byte.
pub fn step_case(state: &mut MessageReader, before: &[u64], byte: u8, message: &mut [u8]) -> Case {
    let request = Request::new().row("row", before).number("byte", usize::from(byte));
    let request = request.bytes("message", message);
    if before.len() != STEP_ROW {
        return request.expects([number(UNSOUND), row("row", before), bytes("message", &*message)]);
    }
    let event = message::read_byte(state, message, byte);
    let (told, numbers) = event_numbers(&event);
    let mut after = reader_state(state);
    after.extend(numbers);
    request.expects([number(told), row("row", &after), bytes("message", &*message)])
}

pub fn step(rng: &mut Rng) -> Case {
    let (mut state, mut message) = reader_and_buffer(rng);
    let any = rng.byte();
    let byte = rng.pick(&[FLAG, FLAG, ESCAPE, 0x5E, any]);
    let mut before = reader_state(&state);
    before.extend(random_numbers(rng, STEP_ROW - before.len()));
    wrong_length(rng, &mut before);
    step_case(&mut state, &before, byte, &mut message)
}

/// Now and then no byte is left where a call begins: at the input's end, or past it, a little or
/// far. Half of those readers are unsound.
fn leave_no_byte(
    rng: &mut Rng,
    input: &mut Vec<u8>,
    from: &mut usize,
    reader: &mut MessageReader,
    room: usize,
) {
    if !rng.percent(15) {
        return;
    }
    if rng.percent(40) {
        input.clear();
    }
    if rng.percent(50) {
        *reader = gen::message_reader(rng, room, false);
    }
    let (end, few, wide) = (input.len(), rng.between(1, 9), rng.pick(&gen::WIDE));
    let far = rng.pick(&[wide.max(end), 1 << 63, usize::MAX]);
    *from = rng.pick(&[end, end + few, far]);
}

/// A row that means this reader reads on in an input; and where it stops.
pub fn read_case(
    state: &mut MessageReader,
    before: &[u64],
    input: &[u8],
    from: usize,
    message: &mut [u8],
) -> (Case, usize) {
    let request = Request::new().row("row", before).bytes("input", input).number("from", from);
    let request = request.bytes("message", message);
    if before.len() != READER_ROW {
        let parts = [number(UNSOUND), row("row", before), bytes("message", &*message)];
        return (request.expects(parts), from);
    }
    let (event, next) = read_on(state, message, input, from);
    let (told, numbers) = event_numbers(&event);
    let mut after = reader_state(state);
    after.extend(numbers);
    after.push(next as u64);
    (request.expects([number(told), row("row", &after), bytes("message", &*message)]), next)
}

pub fn read(rng: &mut Rng) -> Case {
    let (mut state, mut message) = reader_and_buffer(rng);
    let limit = rng.between(5, 40);
    let mut input = gen::uart_stream(rng, MESSAGES, limit, 4, message.len());
    let anywhere = gen::place(rng, input.len());
    // Behind the first byte, most often a flag, stands a message without its own.
    let mut from = rng.pick(&[0, 0, 0, 1, anywhere]);
    leave_no_byte(rng, &mut input, &mut from, &mut state, message.len());
    let mut before = reader_state(&state);
    before.extend(random_numbers(rng, READER_ROW - before.len()));
    wrong_length(rng, &mut before);
    read_case(&mut state, &before, &input, from, &mut message).0
}

fn listener_parts(state: &Listener, told: u8, after: &[u64]) -> [Part; 4] {
    let (message, cargo) = (bytes("message", &state.message[..]), bytes("cargo", &state.cargo[..]));
    [number(told), row("row", after), message, cargo]
}

/// A row that means this listener listens on in an input; and where it stops.
pub fn listen_case(
    state: &mut Listener,
    before: &[u64],
    input: &[u8],
    from: usize,
) -> (Case, usize) {
    let request = Request::new().row("row", before).bytes("input", input).number("from", from);
    let request = request.bytes("message", &state.message).bytes("cargo", &state.cargo);
    if before.len() != LISTENER_ROW {
        return (request.expects(listener_parts(state, UNSOUND, before)), from);
    }
    let (event, next) = state.listen_on(input, from);
    let (told, answer, numbers) = link_event_numbers(&event);
    let mut after = receiver_row(&state.receiver, &answer);
    after.extend(reader_state(&state.reader));
    after.extend(numbers);
    after.push(next as u64);
    (request.expects(listener_parts(state, told, &after)), next)
}

/// A message with this payload, and anything behind it. Where the flag before it opened it, it has
/// none of its own.
fn listener_input(rng: &mut Rng, payload: &[u8], opened: bool, room: usize) -> Vec<u8> {
    let mut input = vec![0; 2 * payload.len() + 3];
    let (_, written) = message::write_message(message::SHTP_ID, payload, &mut input);
    input.truncate(written);
    input.drain(..usize::from(opened));
    input.extend(gen::uart_stream(rng, MESSAGES, 40, 4, room));
    input
}

pub fn listen(rng: &mut Rng) -> Case {
    let (receiver, mut before) = receiver_and_row(rng);
    let (mut reader, mut message) = reader_and_buffer(rng);
    let payload = gen::transfer(rng, &receiver);
    let mut opened = false;
    if rng.percent(70) {
        // So that the payload reaches the receiver, whole or one byte short.
        opened = rng.percent(50);
        reader = if opened { MessageReader::open_and_empty() } else { MessageReader::fresh() };
        message.resize(payload.len() + rng.pick(&[0, 1, 1, 1, 2]), 0);
    }
    let mut input = listener_input(rng, &payload, opened, message.len());
    let anywhere = gen::place(rng, input.len());
    let mut from = rng.pick(&[0, 0, 0, anywhere]);
    leave_no_byte(rng, &mut input, &mut from, &mut reader, message.len());
    let length = gen::cargo_buffer_length(rng, &receiver);
    before.extend(reader_state(&reader));
    before.extend(random_numbers(rng, LISTENER_ROW - before.len()));
    wrong_length(rng, &mut before);
    let mut state = Listener { receiver, reader, message, cargo: rng.bytes(length) };
    listen_case(&mut state, &before, &input, from).0
}

#[cfg(test)]
mod tests {
    use super::*;

    #[test]
    fn calls_with_no_byte_left_come_often() {
        const CALLS: usize = 10_000;
        let (rng, mut met) = (&mut Rng::new(17), [0; 5]);
        for _ in 0..CALLS {
            let (mut reader, mut input, mut from) = (MessageReader::fresh(), vec![FLAG; 5], 0);
            leave_no_byte(rng, &mut input, &mut from, &mut reader, 0);
            let (end, unsound) = (input.len(), !reader.is_sound(&[]));
            let facts = [
                unsound && from >= end,
                unsound && input.is_empty(),
                from == end,
                from > end && from - end < 10,
                from >= 1 << 63,
            ];
            met.iter_mut().zip(facts).for_each(|(count, fact)| *count += usize::from(fact));
        }
        assert!(met.iter().all(|&count| count >= CALLS / 50), "{met:?}");
    }
}
