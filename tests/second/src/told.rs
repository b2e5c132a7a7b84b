//! What a reader tells of a stream: the messages that close in it, and where.

use crate::message::{Event, MessageReader, ReadByte};

#[derive(Clone, Debug, PartialEq, Eq)]
pub struct Told {
    /// Of the byte that closed the message.
    pub place: usize,
    pub what: What,
}

/// What a closed message is; a transfer has its payload.
#[derive(Clone, Debug, PartialEq, Eq)]
pub enum What {
    Transfer(Vec<u8>),
    Query,
    Notice { room: u16 },
    Refused(u8),
}

/// What is told from this state on.
pub fn told(
    read_byte: ReadByte,
    reader: &mut MessageReader,
    buffer: &mut [u8],
    stream: &[u8],
) -> Vec<Told> {
    let mut list = Vec::new();
    for (place, &byte) in stream.iter().enumerate() {
        let what = match read_byte(reader, buffer, byte) {
            Event::Nothing => continue,
            Event::Message { start, end } => What::Transfer(buffer[start..end].to_vec()),
            Event::Query => What::Query,
            Event::Notice { room } => What::Notice { room },
            Event::Refused(number) => What::Refused(number),
        };
        list.push(Told { place, what });
    }
    list
}
