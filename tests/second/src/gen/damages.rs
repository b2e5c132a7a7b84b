//! For damage between two flags: short streams of all kinds of messages, two flags of each, and
//! what comes in place of the bytes between them.

use super::{message_reader, noise_before_the_first_flag, push_body, stuffed_bytes};
use crate::damage::{Damage, Start};
use crate::header::{write_header, HEADER_BYTES};
use crate::message::{CONTROL_ID, ESCAPE, FLAG, SHTP_ID};
use crate::rng::Rng;
use std::ops::Range;

/// The most in one stream, empty ones among them.
const BODIES: usize = 12;

/// Where the two readings of a damage begin: often fresh, else in any state, a few of them unsound.
pub fn start(rng: &mut Rng, room: usize) -> Start {
    let mut start = Start::fresh(room);
    if rng.percent(40) {
        let sound = rng.percent(80);
        start.reader = message_reader(rng, room, sound);
        start.buffer = rng.bytes(room);
        if let Some(id) = start.buffer.first_mut() {
            *id = rng.pick(&[CONTROL_ID, SHTP_ID, SHTP_ID, *id]);
        }
    }
    start
}

/// A damage; some messages are too long for a buffer of `room` bytes.
pub fn damage(rng: &mut Rng, room: usize) -> Damage {
    let whole = stream(rng, room);
    let (first, second) = two_flags(rng, &whole);
    let replacement = replacement(rng, &whole, first + 1..second, room);
    let damaged = [&whole[..=first], &replacement, &whole[second..]].concat();
    Damage { whole, damaged, first, second, second_damaged: first + 1 + replacement.len() }
}

/// At least two flags, and now and then a rest that none closes.
fn stream(rng: &mut Rng, room: usize) -> Vec<u8> {
    let mut stream = noise_before_the_first_flag(rng);
    stream.push(FLAG);
    for _ in 0..rng.between(1, BODIES) {
        push_any_body(rng, &mut stream, room);
        let flags = rng.pick(&[1, 1, 1, 2, 2, 3]);
        stream.extend_from_slice(&[FLAG; 3][..flags]);
    }
    if rng.percent(30) {
        push_any_body(rng, &mut stream, room);
    }
    stream
}

/// The bytes of a message without its flags, or none: every kind that a reader tells.
fn push_any_body(rng: &mut Rng, stream: &mut Vec<u8>, room: usize) {
    let (any, few) = (rng.byte(), rng.below(6));
    match rng.below(16) {
        0..=2 => stream.push(CONTROL_ID),
        3..=5 => push_stuffed(rng, stream, CONTROL_ID, 2),
        6..=10 => push_transfer(rng, stream),
        11 => push_stuffed(rng, stream, any.max(2), few),
        12 => push_stuffed(rng, stream, CONTROL_ID, few),
        13 => push_stuffed(rng, stream, any % 3, room + few / 2),
        14 => stream.extend(stuffed_bytes(rng, few).iter().filter(|&&byte| byte != FLAG)),
        _ => {}
    }
    if rng.percent(8) {
        stream.push(ESCAPE);
    }
}

fn push_stuffed(rng: &mut Rng, stream: &mut Vec<u8>, id: u8, length: usize) {
    let payload = stuffed_bytes(rng, length);
    push_body(rng, stream, id, &payload);
}

/// Most often a whole cargo of a few bytes, else cut or with a length of its own.
fn push_transfer(rng: &mut Rng, stream: &mut Vec<u8>) {
    let (cargo, other) = (rng.below(9), rng.below(40));
    let length = rng.pick(&[HEADER_BYTES + cargo, HEADER_BYTES + cargo, other]) as u16;
    let header = write_header(rng.percent(25), length, rng.below(4) as u8, rng.below(4) as u8);
    let mut payload = header.to_vec();
    payload.extend(stuffed_bytes(rng, cargo));
    payload.truncate(if rng.percent(10) { rng.below(HEADER_BYTES) } else { payload.len() });
    push_body(rng, stream, SHTP_ID, &payload);
}

/// Any two flags of the stream: often its first, and often near each other.
fn two_flags(rng: &mut Rng, stream: &[u8]) -> (usize, usize) {
    let is_flag = |&place: &usize| stream[place] == FLAG;
    let flags: Vec<usize> = (0..stream.len()).filter(is_flag).collect();
    let first = if rng.percent(15) { 0 } else { rng.below(flags.len() - 1) };
    let last = flags.len() - 1;
    let second = match rng.below(10) {
        0..=3 => first + 1,
        4..=6 => rng.between(first + 1, last.min(first + 4)),
        _ => rng.between(first + 1, last),
    };
    (flags[first], flags[second])
}

/// What was there, damaged once or more.
fn replacement(rng: &mut Rng, whole: &[u8], between: Range<usize>, room: usize) -> Vec<u8> {
    let mut bytes = whole[between].to_vec();
    for _ in 0..rng.pick(&[1, 1, 2]) {
        match rng.below(15) {
            0..=2 => flip_bits(rng, &mut bytes),
            3 | 4 => insert_bytes(rng, &mut bytes),
            5 | 6 => lose_bytes(rng, &mut bytes),
            7 | 8 => hit_a_flag(rng, &mut bytes),
            9 | 10 => bytes = rich_bytes(rng),
            11 | 12 => {
                bytes.clear();
                push_any_body(rng, &mut bytes, room);
            }
            13 => bytes = whole[part_of(rng, whole.len())].to_vec(),
            _ => bytes.clear(),
        }
    }
    bytes
}

fn flip_bits(rng: &mut Rng, bytes: &mut [u8]) {
    for _ in 0..rng.between(1, 3) {
        let place = rng.below(bytes.len());
        if let Some(byte) = bytes.get_mut(place) {
            *byte ^= 1 << rng.below(8);
        }
    }
}

fn insert_bytes(rng: &mut Rng, bytes: &mut Vec<u8>) {
    let place = rng.below(bytes.len() + 1);
    let count = rng.between(1, 3);
    bytes.splice(place..place, stuffed_bytes(rng, count));
}

fn lose_bytes(rng: &mut Rng, bytes: &mut Vec<u8>) {
    let start = rng.below(bytes.len());
    let end = bytes.len().min(start + rng.between(1, 3));
    bytes.drain(start..end);
}

/// A bit of a flag flipped, or a flag in place of another byte where there is none.
fn hit_a_flag(rng: &mut Rng, bytes: &mut [u8]) {
    let start = rng.below(bytes.len());
    let next_flag = bytes.iter().skip(start).position(|&byte| byte == FLAG);
    match (next_flag, bytes.get_mut(start)) {
        (Some(behind), _) => bytes[start + behind] ^= 1 << rng.below(8),
        (None, Some(byte)) => *byte = FLAG,
        (None, None) => {}
    }
}

fn rich_bytes(rng: &mut Rng) -> Vec<u8> {
    let rich = |rng: &mut Rng| {
        let any = rng.byte();
        rng.pick(&[FLAG, FLAG, ESCAPE, ESCAPE, CONTROL_ID, SHTP_ID, any, any])
    };
    (0..rng.between(1, 12)).map(|_| rich(rng)).collect()
}

fn part_of(rng: &mut Rng, length: usize) -> Range<usize> {
    let start = rng.below(length + 1);
    start..rng.between(start, length.min(start + 30))
}
