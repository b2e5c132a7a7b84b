//! The four header bytes (01, "Header and length"; 004, 2.2.1).

/// Bytes of a header; every length L counts them.
pub const HEADER_BYTES: usize = 4;
/// The largest L that a transfer may name.
pub const LARGEST_LENGTH: usize = 32_766;
/// The L that a failed peripheral produces; reserved.
pub const RESERVED_LENGTH: usize = 32_767;

const CONTINUATION_BIT: u16 = 0x8000;

/// What a header says when it is no null header.
#[derive(Clone, Copy, Debug, PartialEq, Eq)]
pub struct Fields {
    pub length: usize,
    pub channel: usize,
    pub number: u8,
}

#[derive(Clone, Copy, Debug, PartialEq, Eq)]
pub enum Reading {
    UnderFourBytes,
    Null,
    First(Fields),
    Continuation(Fields),
}

/// Reads the header at the front of a transfer. The length is not judged here,
/// apart from 0.
pub fn read_header(transfer: &[u8]) -> Reading {
    let &[low, high, channel, number, ..] = transfer else {
        return Reading::UnderFourBytes;
    };
    let field = u16::from_le_bytes([low, high]);
    let fields = Fields {
        length: usize::from(field & !CONTINUATION_BIT),
        channel: usize::from(channel),
        number,
    };
    if fields.length == 0 {
        Reading::Null
    } else if field & CONTINUATION_BIT == 0 {
        Reading::First(fields)
    } else {
        Reading::Continuation(fields)
    }
}

/// Writes a header. Bits of the length above 14 are cut off, so that they can
/// never pass for the continuation mark.
pub fn write_header(continuation: bool, length: u16, channel: u8, number: u8) -> [u8; 4] {
    let mark = if continuation { CONTINUATION_BIT } else { 0 };
    let [low, high] = ((length & !CONTINUATION_BIT) | mark).to_le_bytes();
    [low, high, channel, number]
}

/// The number after this one; 255 is followed by 0 (01, "Sequence numbers").
pub fn step(number: u8) -> u8 {
    number.wrapping_add(1)
}

/// How far the number received lies past the one expected, modulo 256.
pub fn gap(received: u8, expected: u8) -> u8 {
    received.wrapping_sub(expected)
}
