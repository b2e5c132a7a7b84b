//! A stream lent in slices: a call reads on in one, from a place to the next event, alone or above
//! a receiver.

use crate::message::{hand_on, read_byte, Event, Hearer, LinkEvent, MessageReader};
use crate::numbers::UNSOUND;
use crate::receiver::Receiver;

/// The event, and the place behind the last byte taken; where no byte was left, `from`.
pub fn read_on(
    state: &mut MessageReader,
    buffer: &mut [u8],
    slice: &[u8],
    from: usize,
) -> (Event, usize) {
    for (place, &byte) in slice.iter().enumerate().skip(from) {
        let event = read_byte(state, buffer, byte);
        if event != Event::Nothing {
            return (event, place + 1);
        }
    }
    // 23 is asked at every call: where a reader is unsound here, no byte was left to ask it.
    let event = if state.is_sound(buffer) { Event::Nothing } else { Event::Refused(UNSOUND) };
    (event, from.max(slice.len()))
}

/// A reader above a receiver, with the memory that both are lent.
#[derive(Clone, Debug, PartialEq, Eq)]
pub struct Listener {
    pub receiver: Receiver,
    pub reader: MessageReader,
    pub message: Vec<u8>,
    pub cargo: Vec<u8>,
}

impl Listener {
    pub fn listen_on(&mut self, slice: &[u8], from: usize) -> (LinkEvent, usize) {
        let (event, next) = read_on(&mut self.reader, &mut self.message, slice, from);
        let Listener { receiver, message, cargo, .. } = self;
        (hand_on(event, message, Hearer::RIGHT.take, receiver, cargo), next)
    }
}
