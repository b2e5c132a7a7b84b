//! Inputs for comparing two implementations, made from a seed: states sound and
//! unsound, transfers, cargoes, UART streams, advertisements and error lists.

mod damages;
mod indexes;
mod permits;
mod trips;

pub use damages::{damage, start};
pub use indexes::{advertisement_to_index, index, question};
pub use permits::{notification, permitted_message, permitted_send, PermittedCall};
pub use trips::{
    answer_for, odometer, totals_cargo, totals_stream, trip_past_64_bits, trip_stream,
};

use crate::entry::KNOWN_TAGS;
use crate::header::{write_header, HEADER_BYTES, LARGEST_LENGTH, RESERVED_LENGTH};
use crate::message::{MessageReader, Phase, ESCAPE, ESCAPE_MASK, FLAG};
use crate::receiver::{Channel, Incoming, Receiver, MOST_CHANNELS, SMALLEST_LIMIT};
use crate::rng::Rng;
use crate::sender::{Outgoing, Sender};

/// Numbers at the edges of the types another implementation may use.
pub const WIDE: [usize; 8] = [
    256,
    32_768,
    65_535,
    65_536 + 8,
    u32::MAX as usize,
    u32::MAX as usize + 9,
    usize::MAX - 1,
    usize::MAX,
];

fn limit(rng: &mut Rng) -> usize {
    match rng.below(10) {
        0 => SMALLEST_LIMIT,
        1 => LARGEST_LENGTH,
        2 => rng.between(SMALLEST_LIMIT, LARGEST_LENGTH),
        3 => rng.between(200, 700),
        _ => rng.between(SMALLEST_LIMIT, 48),
    }
}

fn channel_count(rng: &mut Rng) -> usize {
    match rng.below(4) {
        0 => 1,
        1 => MOST_CHANNELS,
        _ => rng.between(1, MOST_CHANNELS),
    }
}

/// A count, often near where it runs over.
fn count_value(rng: &mut Rng) -> u32 {
    match rng.below(3) {
        0 => rng.below(300) as u32,
        1 => u32::MAX - rng.below(300) as u32,
        _ => rng.next_u64() as u32,
    }
}

fn channel_record(rng: &mut Rng) -> Channel {
    let expected = match rng.below(3) {
        0 => 0,
        1 => rng.between(250, 255) as u8,
        _ => rng.byte(),
    };
    Channel {
        expected,
        heard: rng.percent(70),
        missing: count_value(rng),
        repeats: count_value(rng),
    }
}

/// A receiver's state; an unsound one has a single flaw.
pub fn receiver(rng: &mut Rng, sound: bool) -> Receiver {
    let mut state = Receiver::fresh(limit(rng), channel_count(rng));
    for channel in &mut state.channels {
        *channel = channel_record(rng);
    }
    if rng.percent(65) {
        let total = rng.between(1, state.limit - HEADER_BYTES);
        let channel = rng.below(state.count);
        state.under_way = Some(Incoming { channel, total, held: rng.below(total) });
    }
    if !sound {
        spoil_receiver(rng, &mut state);
    }
    state
}

fn spoil_receiver(rng: &mut Rng, state: &mut Receiver) {
    let flaw = rng.below(8);
    let wide = rng.pick(&WIDE);
    let mut cargo = state.under_way.unwrap_or(Incoming { channel: 0, total: 1, held: 0 });
    match flaw {
        0 => state.limit = rng.below(SMALLEST_LIMIT),
        1 => state.limit = rng.pick(&[LARGEST_LENGTH + 1, 32_768, 65_541, usize::MAX]),
        2 => state.count = 0,
        3 => state.count = rng.pick(&[MOST_CHANNELS + 1, 64, 256 + 4, usize::MAX]),
        4 => cargo.channel = rng.pick(&[state.count, MOST_CHANNELS, wide]),
        5 => (cargo.total, cargo.held) = (0, rng.below(2)),
        6 => cargo.total = rng.pick(&[state.limit - 3, state.limit + 1, 65_536, usize::MAX]),
        _ => cargo.held = rng.pick(&[cargo.total, cargo.total + 1, usize::MAX]),
    }
    if flaw > 3 {
        state.under_way = Some(cargo);
    }
}

/// A length for a lent buffer or output: most often just enough, or one less.
pub fn lent_length(rng: &mut Rng, needed: usize) -> usize {
    let needed = needed.min(LARGEST_LENGTH);
    match rng.below(8) {
        0 => needed.saturating_sub(1),
        1 => rng.below(needed + 1),
        2 => needed + rng.below(40),
        3 => 0,
        _ => needed,
    }
}

/// The length for a lent cargo buffer, seldom too short.
pub fn cargo_buffer_length(rng: &mut Rng, state: &Receiver) -> usize {
    let needed = state.limit.saturating_sub(HEADER_BYTES);
    if rng.percent(10) {
        lent_length(rng, needed)
    } else {
        needed.min(LARGEST_LENGTH) + rng.below(3)
    }
}

/// A transfer likely to meet this state: fitting, cut, padded, repeated, with a
/// gap, damaged, truncated, or with a length at an edge.
pub fn transfer(rng: &mut Rng, state: &Receiver) -> Vec<u8> {
    let channel = transfer_channel(rng, state);
    let expected = state.channels[usize::from(channel) % MOST_CHANNELS].expected;
    let number = transfer_number(rng, expected);
    let continuation = rng.percent(if state.under_way.is_some() { 65 } else { 25 });
    let length = transfer_length(rng, state, continuation);
    let mut bytes = write_header(continuation, length as u16, channel, number).to_vec();
    let size = transfer_size(rng, length);
    bytes.extend(rng.bytes(size - HEADER_BYTES));
    if rng.percent(12) {
        spoil_transfer(rng, &mut bytes);
    }
    bytes
}

fn transfer_channel(rng: &mut Rng, state: &Receiver) -> u8 {
    match (state.under_way, rng.below(10)) {
        (Some(cargo), 0..=5) => cargo.channel as u8,
        (_, 9) => rng.pick(&[state.count as u8, MOST_CHANNELS as u8, 31, 255]),
        _ => rng.below(state.count.min(MOST_CHANNELS)) as u8,
    }
}

fn transfer_number(rng: &mut Rng, expected: u8) -> u8 {
    match rng.below(10) {
        0 => expected.wrapping_sub(1),
        1 => expected.wrapping_add(rng.pick(&[1, 2, 253, 254])),
        2 => rng.byte(),
        _ => expected,
    }
}

fn transfer_length(rng: &mut Rng, state: &Receiver, continuation: bool) -> usize {
    let edges =
        [0, 1, 4, 5, state.limit, state.limit.wrapping_add(1), LARGEST_LENGTH, RESERVED_LENGTH];
    let chosen = match (state.under_way, rng.below(12)) {
        (_, 0) => rng.pick(&edges),
        (_, 1) => rng.below(state.limit.min(LARGEST_LENGTH) + 3),
        (Some(cargo), 2..=10) if continuation => {
            cargo.total.wrapping_sub(cargo.held).wrapping_add(HEADER_BYTES)
        }
        (Some(cargo), _) if continuation => cargo.total.wrapping_add(HEADER_BYTES),
        _ => rng.between(SMALLEST_LIMIT, state.limit.clamp(SMALLEST_LIMIT, 60)),
    };
    chosen & RESERVED_LENGTH
}

fn transfer_size(rng: &mut Rng, length: usize) -> usize {
    let size = match rng.below(8) {
        0 => HEADER_BYTES,
        1 | 2 => rng.between(HEADER_BYTES, length),
        3 => length + rng.between(1, 12),
        4 => length.saturating_sub(1),
        _ => length,
    };
    size.max(HEADER_BYTES)
}

fn spoil_transfer(rng: &mut Rng, bytes: &mut Vec<u8>) {
    match rng.below(4) {
        0 => bytes.truncate(rng.below(HEADER_BYTES + 1)),
        1 => bytes[..HEADER_BYTES].fill(rng.pick(&[0, 0xFF])),
        2 => {
            let length = rng.below(12);
            *bytes = rng.bytes(length);
        }
        _ => {
            let place = rng.below(bytes.len().min(8));
            bytes[place] ^= 1 << rng.below(8);
        }
    }
}

/// A sender's state; an unsound one has a single flaw.
pub fn sender(rng: &mut Rng, sound: bool) -> Sender {
    let limit = limit(rng);
    let largest = if rng.percent(50) { limit.min(24) } else { limit };
    let mut state = Sender::fresh(limit, channel_count(rng), rng.between(SMALLEST_LIMIT, largest));
    for number in &mut state.numbers {
        *number = if rng.percent(30) { 255 } else { rng.byte() };
    }
    let longest = limit - HEADER_BYTES;
    if longest > 1 && rng.percent(65) {
        let total = rng.between(2, longest);
        let channel = rng.below(state.count);
        state.under_way = Some(Outgoing { channel, total, sent: rng.between(1, total - 1) });
    }
    if !sound {
        spoil_sender(rng, &mut state);
    }
    state
}

fn spoil_sender(rng: &mut Rng, state: &mut Sender) {
    let flaw = rng.below(10);
    let wide = rng.pick(&WIDE);
    let mut cargo = state.under_way.unwrap_or(Outgoing { channel: 0, total: 2, sent: 1 });
    match flaw {
        0 => state.limit = rng.below(SMALLEST_LIMIT),
        1 => state.limit = rng.pick(&[LARGEST_LENGTH + 1, 32_768, 65_541, usize::MAX]),
        2 => state.count = 0,
        3 => state.count = rng.pick(&[MOST_CHANNELS + 1, 64, 256 + 4, usize::MAX]),
        4 => state.largest_transfer = rng.below(SMALLEST_LIMIT),
        5 => state.largest_transfer = rng.pick(&[state.limit + 1, 65_541, usize::MAX]),
        6 => cargo.channel = rng.pick(&[state.count, MOST_CHANNELS, wide.max(MOST_CHANNELS)]),
        7 => cargo.sent = 0,
        8 => cargo.total = rng.pick(&[0, state.limit - 3, 65_536, usize::MAX]),
        _ => cargo.sent = rng.pick(&[cargo.total, cargo.total + 1, usize::MAX]),
    }
    if flaw > 5 {
        state.under_way = Some(cargo);
    }
}

/// A cargo of 0 to `longest` bytes, with more flags and escapes than chance gives.
pub fn cargo(rng: &mut Rng, longest: usize) -> Vec<u8> {
    let length = rng.below(longest.saturating_add(1));
    stuffed_bytes(rng, length)
}

/// Each fifth is a flag, an escape, or what one of them becomes.
fn stuffed_bytes(rng: &mut Rng, length: usize) -> Vec<u8> {
    let byte = |drawn: usize| match drawn.checked_sub(256) {
        None => drawn as u8,
        Some(more) => [FLAG, ESCAPE, 0x5E, 0x5D][more % 4],
    };
    (0..length).map(|_| byte(rng.below(256 + 64))).collect()
}

/// One call on a sender.
#[derive(Clone, Debug)]
pub struct SendCall {
    pub channel: usize,
    pub cargo: Vec<u8>,
    pub out_length: usize,
}

/// A call likely to meet this state: the cargo under way, another one, a length
/// at an edge, an output just long enough or one byte short.
pub fn send_call(rng: &mut Rng, state: &Sender) -> SendCall {
    let longest = state.limit.saturating_sub(HEADER_BYTES).min(LARGEST_LENGTH);
    let channel = match (state.under_way, rng.below(10)) {
        (Some(cargo), 0..=7) => cargo.channel,
        (_, 9) => rng.pick(&[state.count, MOST_CHANNELS, 256, usize::MAX]),
        _ => rng.below(state.count.min(MOST_CHANNELS)),
    };
    let length = match (state.under_way, rng.below(10)) {
        (Some(cargo), 0..=7) => cargo.total.min(LARGEST_LENGTH),
        (_, 8) => rng.pick(&[0, 1, longest, longest + 1]),
        _ => rng.between(1, longest.clamp(1, 80)),
    };
    let sent = state.under_way.map_or(0, |cargo| cargo.sent);
    let due = length.saturating_sub(sent) + HEADER_BYTES;
    let out_length = lent_length(rng, due.min(state.largest_transfer));
    SendCall { channel, cargo: stuffed_bytes(rng, length), out_length }
}

/// A message reader's state for a buffer of this length.
pub fn message_reader(rng: &mut Rng, buffer_length: usize, sound: bool) -> MessageReader {
    let phase = rng.pick(&[Phase::Outside, Phase::Inside, Phase::Escaped, Phase::Overlong]);
    let held = if sound {
        let anywhere = rng.below(buffer_length + 1);
        rng.pick(&[0, anywhere, buffer_length])
    } else {
        rng.pick(&[buffer_length + 1, buffer_length + 300, usize::MAX])
    };
    MessageReader { phase, held }
}

/// A UART stream of up to `most` messages, whose transfers are meant for a receiver fresh with
/// these settings. Two messages often share the flag between them.
pub fn uart_stream(
    rng: &mut Rng,
    most: usize,
    limit: usize,
    count: usize,
    buffer_length: usize,
) -> Vec<u8> {
    let mut shadow = Receiver::fresh(limit, count);
    let mut cargo_buffer = vec![0; limit.clamp(SMALLEST_LIMIT, LARGEST_LENGTH) - HEADER_BYTES];
    let mut stream = noise_before_the_first_flag(rng);
    for _ in 0..rng.between(1, most) {
        if rng.percent(60) {
            let bytes = transfer(rng, &shadow);
            // Keeps the shadow near the state that the reader's receiver will have.
            crate::receiver::take(&mut shadow, &bytes, &mut cargo_buffer);
            push_message(rng, &mut stream, 1, &bytes);
        } else {
            push_other(rng, &mut stream, buffer_length);
        }
    }
    if rng.percent(20) {
        stream.truncate(rng.below(stream.len() + 1));
    }
    stream
}

/// Most often none.
fn noise_before_the_first_flag(rng: &mut Rng) -> Vec<u8> {
    let length = if rng.percent(25) { rng.between(1, 8) } else { 0 };
    let mut noise = stuffed_bytes(rng, length);
    noise.retain(|&byte| byte != FLAG);
    noise
}

/// Anything but a transfer: control messages right and wrong, unknown IDs, flags,
/// cut escapes, noise and messages longer than the buffer.
fn push_other(rng: &mut Rng, stream: &mut Vec<u8>, buffer_length: usize) {
    let payload_length = match rng.below(8) {
        0 | 1 => 0,
        2 | 3 => 2,
        _ => rng.below(6),
    };
    let payload = stuffed_bytes(rng, payload_length);
    let any_id = rng.byte();
    match rng.below(8) {
        0..=2 => push_message(rng, stream, 0, &payload),
        3 => push_message(rng, stream, any_id, &payload),
        4 => stream.extend(vec![FLAG; rng.between(1, 3)]),
        5 => {
            push_opening_flags(rng, stream);
            stream.extend([rng.pick(&[0, 1, 2, ESCAPE]), ESCAPE, FLAG]);
        }
        6 => {
            let noise = rng.below(9);
            stream.extend(stuffed_bytes(rng, noise));
        }
        _ => {
            let length = buffer_length.min(LARGEST_LENGTH + 9) + rng.below(4);
            let long = stuffed_bytes(rng, length.saturating_sub(2));
            push_message(rng, stream, any_id % 3, &long);
        }
    }
}

/// Appends a message, seldom without its closing flag.
fn push_message(rng: &mut Rng, stream: &mut Vec<u8>, id: u8, payload: &[u8]) {
    push_opening_flags(rng, stream);
    push_body(rng, stream, id, payload);
    if !rng.percent(4) {
        stream.push(FLAG);
    }
}

/// Appends what stands between a message's flags, now and then with needless escapes.
fn push_body(rng: &mut Rng, stream: &mut Vec<u8>, id: u8, payload: &[u8]) {
    let needless = if rng.percent(20) { 30 } else { 0 };
    for &byte in std::iter::once(&id).chain(payload) {
        let escaped = byte ^ ESCAPE_MASK;
        if byte == FLAG || byte == ESCAPE || (escaped != FLAG && rng.percent(needless)) {
            stream.extend([ESCAPE, escaped]);
        } else {
            stream.push(byte);
        }
    }
}

/// Often none where a flag was the last byte, so that it opens what follows; seldom several, or
/// none where one is needed.
fn push_opening_flags(rng: &mut Rng, stream: &mut Vec<u8>) {
    let flags = match rng.below(25) {
        0 => 0,
        1 => rng.between(2, 4),
        2..=14 if stream.last() == Some(&FLAG) => 0,
        _ => 1,
    };
    stream.extend(vec![FLAG; flags]);
}

/// An advertisement: entries of known and unknown tags, right and wrong lengths,
/// now and then cut off or with a byte changed.
pub fn advertisement(rng: &mut Rng) -> Vec<u8> {
    let mut bytes = if rng.percent(50) { vec![0] } else { Vec::new() };
    for _ in 0..rng.below(10) {
        let tag = if rng.percent(75) { rng.pick(&KNOWN_TAGS).tag } else { rng.byte() };
        let length = match rng.below(6) {
            0 => 0,
            1 => rng.between(0, 255),
            2 | 3 => 4,
            _ => rng.below(9),
        };
        bytes.extend([tag, length as u8]);
        bytes.extend(rng.bytes(length));
    }
    if rng.percent(40) {
        bytes.truncate(rng.below(bytes.len() + 1));
    }
    if rng.percent(20) && !bytes.is_empty() {
        let place = rng.below(bytes.len());
        bytes[place] = rng.byte();
    }
    bytes
}

/// A place in a cargo of this length: inside, at its end, past it, or huge.
pub fn place(rng: &mut Rng, length: usize) -> usize {
    match rng.below(8) {
        0 => length,
        1 => length.saturating_sub(1),
        2 => rng.pick(&WIDE),
        3 => length + 1,
        _ => rng.below(length + 1),
    }
}

/// An error list, seldom with another response byte or empty.
pub fn error_list(rng: &mut Rng) -> Vec<u8> {
    if rng.percent(8) {
        return Vec::new();
    }
    let response = if rng.percent(85) { 1 } else { rng.byte() };
    let mut bytes = vec![response];
    for _ in 0..rng.below(20) {
        bytes.push(if rng.percent(75) { rng.below(15) as u8 } else { rng.byte() });
    }
    bytes
}
