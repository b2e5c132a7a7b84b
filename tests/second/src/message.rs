//! UART messages, written and read (01, "UART messages"; 02, request 3; 004, section 4).

use crate::numbers::*;
use crate::receiver::{take, Answer, Receiver, Take};

pub const FLAG: u8 = 0x7E;
pub const ESCAPE: u8 = 0x7D;
pub const ESCAPE_MASK: u8 = 0x20;
pub const CONTROL_ID: u8 = 0;
pub const SHTP_ID: u8 = 1;

/// Where a reader stands. It is `Outside` before the first flag of a stream and never again;
/// `Inside` with nothing held is a reader that has had no byte since a flag.
#[derive(Clone, Copy, Debug, PartialEq, Eq)]
pub enum Phase {
    Outside,
    Inside,
    Escaped,
    Overlong,
}

#[derive(Clone, Copy, Debug, PartialEq, Eq)]
pub struct MessageReader {
    pub phase: Phase,
    pub held: usize,
}

#[derive(Clone, Copy, Debug, PartialEq, Eq)]
pub enum Event {
    Nothing,
    /// An SHTP payload, as places of the lent buffer: start, and end past the last.
    Message {
        start: usize,
        end: usize,
    },
    Query,
    Notice {
        room: u16,
    },
    Refused(u8),
}

/// What a reader above a receiver tells.
#[derive(Clone, Copy, Debug, PartialEq, Eq)]
pub enum LinkEvent {
    Nothing,
    Transfer(Answer),
    Query,
    Notice { room: u16 },
    Refused(u8),
}

/// What reads a byte: `read_byte`, or the wrong reader.
pub type ReadByte = fn(&mut MessageReader, &mut [u8], u8) -> Event;

/// What hears a stream: a reader above a receiver.
#[derive(Clone, Copy)]
pub struct Hearer {
    pub read_byte: ReadByte,
    pub take: Take,
}

impl Hearer {
    pub const RIGHT: Hearer = Hearer { read_byte, take };
}

impl MessageReader {
    pub fn fresh() -> MessageReader {
        MessageReader { phase: Phase::Outside, held: 0 }
    }

    /// What every flag leaves.
    pub fn open_and_empty() -> MessageReader {
        MessageReader { phase: Phase::Inside, held: 0 }
    }

    pub fn is_sound(&self, buffer: &[u8]) -> bool {
        self.held <= buffer.len()
    }
}

/// Takes one byte of the stream.
pub fn read_byte(state: &mut MessageReader, buffer: &mut [u8], byte: u8) -> Event {
    if !state.is_sound(buffer) {
        return Event::Refused(UNSOUND);
    }
    if byte == FLAG {
        return read_flag(state, buffer);
    }
    match state.phase {
        Phase::Outside | Phase::Overlong => {}
        Phase::Inside if byte == ESCAPE => state.phase = Phase::Escaped,
        Phase::Inside => hold(state, buffer, byte),
        Phase::Escaped => hold(state, buffer, byte ^ ESCAPE_MASK),
    }
    Event::Nothing
}

fn hold(state: &mut MessageReader, buffer: &mut [u8], byte: u8) {
    if let Some(place) = buffer.get_mut(state.held) {
        *place = byte;
        state.held += 1;
        state.phase = Phase::Inside;
    } else {
        state.phase = Phase::Overlong;
    }
}

/// A flag closes what precedes it and opens what follows; nothing between two is no message.
fn read_flag(state: &mut MessageReader, buffer: &[u8]) -> Event {
    let before = std::mem::replace(state, MessageReader::open_and_empty());
    match (before.phase, before.held) {
        (Phase::Outside, _) | (Phase::Inside, 0) => Event::Nothing,
        (phase, held) => judge_closed(phase, &buffer[..held]),
    }
}

/// The order 32, 31, 30, 33 at the closing flag.
fn judge_closed(phase: Phase, held: &[u8]) -> Event {
    match (phase, held) {
        (Phase::Overlong, _) => Event::Refused(MESSAGE_TOO_LONG),
        (Phase::Escaped, _) => Event::Refused(FLAG_AFTER_ESCAPE),
        (_, [SHTP_ID, ..]) => Event::Message { start: 1, end: held.len() },
        (_, [CONTROL_ID]) => Event::Query,
        (_, &[CONTROL_ID, low, high]) => Event::Notice { room: u16::from_le_bytes([low, high]) },
        (_, [CONTROL_ID, ..]) => Event::Refused(CONTROL_LENGTH),
        _ => Event::Refused(ID_UNKNOWN),
    }
}

/// Takes one byte and hands a closed SHTP payload on to the receiver, as this hearer does.
pub fn read_byte_for(
    hearer: Hearer,
    receiver: &mut Receiver,
    cargo_buffer: &mut [u8],
    state: &mut MessageReader,
    message_buffer: &mut [u8],
    byte: u8,
) -> LinkEvent {
    let event = (hearer.read_byte)(state, message_buffer, byte);
    hand_on(event, message_buffer, hearer.take, receiver, cargo_buffer)
}

/// What an event of the reader is above a receiver that takes a closed SHTP payload so.
pub fn hand_on(
    event: Event,
    message_buffer: &[u8],
    take: Take,
    receiver: &mut Receiver,
    cargo_buffer: &mut [u8],
) -> LinkEvent {
    match event {
        Event::Nothing => LinkEvent::Nothing,
        Event::Message { start, end } => {
            LinkEvent::Transfer(take(receiver, &message_buffer[start..end], cargo_buffer))
        }
        Event::Query => LinkEvent::Query,
        Event::Notice { room } => LinkEvent::Notice { room },
        Event::Refused(number) => LinkEvent::Refused(number),
    }
}

/// Writes a message: the answer number and the bytes written.
pub fn write_message(id: u8, payload: &[u8], out: &mut [u8]) -> (u8, usize) {
    if id != CONTROL_ID && id != SHTP_ID {
        return (ID_UNKNOWN, 0);
    }
    let escaped = payload.iter().filter(|&&byte| is_reserved(byte)).count();
    let size = 3 + payload.len() + escaped;
    if out.len() < size {
        return (OUTPUT_SHORT, 0);
    }
    out[0] = FLAG;
    out[1] = id;
    let mut place = 2;
    for &byte in payload {
        if is_reserved(byte) {
            out[place] = ESCAPE;
            place += 1;
        }
        out[place] = if is_reserved(byte) { byte ^ ESCAPE_MASK } else { byte };
        place += 1;
    }
    out[place] = FLAG;
    (DONE, size)
}

fn is_reserved(byte: u8) -> bool {
    byte == FLAG || byte == ESCAPE
}

/// Writes a Buffer Status Query (004, 4.3).
pub fn write_query(out: &mut [u8]) -> (u8, usize) {
    write_message(CONTROL_ID, &[], out)
}

/// Writes a Buffer Status Notification (004, 4.3), low byte first.
pub fn write_notice(room: u16, out: &mut [u8]) -> (u8, usize) {
    write_message(CONTROL_ID, &room.to_le_bytes(), out)
}
