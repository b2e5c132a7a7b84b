//! Compared calls of the header's functions.

use crate::cases::{bytes, number, row, Case};
use crate::request::Request;
use second::gen;
use second::header::{self, Fields, Reading, HEADER_BYTES, RESERVED_LENGTH};
use second::numbers::*;
use second::receiver::Receiver;
use second::rng::Rng;

pub fn read_header_case(transfer: &[u8]) -> Case {
    let told = |mark, fields: Fields| {
        let Fields { length, channel, number } = fields;
        [mark, length as u64, channel as u64, u64::from(number)]
    };
    let (answer, told) = match header::read_header(transfer) {
        Reading::UnderFourBytes => (SHORT_TRANSFER, [0; 4]),
        Reading::Null => (DONE, [0; 4]),
        Reading::First(fields) => (DONE, told(0, fields)),
        Reading::Continuation(fields) => (DONE, told(1, fields)),
    };
    let request = Request::new().bytes("transfer", transfer);
    request.expects([number(answer), row("told", &told)])
}

pub fn read_header(rng: &mut Rng) -> Case {
    let state = gen::receiver(rng, true);
    read_header_case(&gen::transfer(rng, &state))
}

/// What a header is to say.
pub struct Header {
    pub continuation: bool,
    pub length: usize,
    pub channel: usize,
    pub number: u8,
}

/// The second program's bytes; what four bytes cannot say is refused, as docs/DECISIONS.md decides.
pub fn write_header_case(header: &Header, mut out: Vec<u8>) -> Case {
    let Header { continuation, length, channel, number: sequence } = *header;
    let request = Request::new().number("continuation", usize::from(continuation));
    let request = request.number("length", length).number("channel", channel);
    let request = request.number("number", usize::from(sequence)).bytes("out", &out);
    let answer = if length > RESERVED_LENGTH {
        LENGTH_ABOVE_LIMIT
    } else if channel > usize::from(u8::MAX) {
        CHANNEL_UNKNOWN
    } else if out.len() < HEADER_BYTES {
        OUTPUT_SHORT
    } else {
        let four = header::write_header(continuation, length as u16, channel as u8, sequence);
        out[..HEADER_BYTES].copy_from_slice(&four);
        DONE
    };
    request.expects([number(answer), bytes("out", out)])
}

/// A length at an edge of what four bytes can say, or past it.
fn any_length(rng: &mut Rng) -> usize {
    let wide = rng.pick(&gen::WIDE);
    let any = rng.below(RESERVED_LENGTH + 1);
    rng.pick(&[0, 1, 255, 256, RESERVED_LENGTH, RESERVED_LENGTH + 1, any, any, wide])
}

pub fn write_header(rng: &mut Rng) -> Case {
    let (continuation, length, number) = (rng.percent(50), any_length(rng), rng.byte());
    let (any, wide) = (usize::from(rng.byte()), rng.pick(&gen::WIDE));
    let channel = rng.pick(&[0, 31, 32, 255, 256, any, any, any, wide]);
    let room = gen::lent_length(rng, HEADER_BYTES);
    let header = Header { continuation, length, channel, number };
    write_header_case(&header, rng.bytes(room))
}

pub fn first_number(_: &mut Rng) -> Case {
    let expected = Receiver::fresh(5, 1).channels[0].expected;
    Request::new().expects([row("first", &[u64::from(expected)])])
}

pub fn next_number_case(before: u8) -> Case {
    let request = Request::new().number("number", usize::from(before));
    request.expects([row("next", &[u64::from(header::step(before))])])
}

pub fn next_number(rng: &mut Rng) -> Case {
    next_number_case(rng.byte())
}

pub fn gap_case(received: u8, expected: u8) -> Case {
    let request = Request::new().number("received", usize::from(received));
    let request = request.number("expected", usize::from(expected));
    request.expects([row("gap", &[u64::from(header::gap(received, expected))])])
}

pub fn gap(rng: &mut Rng) -> Case {
    gap_case(rng.byte(), rng.byte())
}
