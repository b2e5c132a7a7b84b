//! The error list response (01, "Advertisement and error list"; 004, 5.1.2.1).

use crate::numbers::NOT_AN_ERROR_LIST;

const ERROR_LIST_RESPONSE: u8 = 1;

/// The codes 0 to 12 of 004, told in short.
pub const MEANINGS: [&str; 13] = [
    "no error",
    "hub application passed the largest read cargo",
    "host write shorter than a header",
    "host length above the largest write cargo",
    "host length leaves no cargo",
    "host began a fragmented cargo, unsupported",
    "host continued a fragmented cargo, unsupported",
    "command unknown on the control channel",
    "parameter unknown to get-advertisement",
    "host wrote to an unknown channel",
    "advertisement asked for while one was pending",
    "host wrote before the advertisement was sent",
    "error list cut, too long to send",
];

#[derive(Clone, Copy, Debug, PartialEq, Eq)]
pub enum CountAnswer {
    Codes(usize),
    Refused(u8),
}

#[derive(Clone, Copy, Debug, PartialEq, Eq)]
pub enum CodeAnswer {
    /// A code and its meaning, `None` where it is unknown.
    Code {
        code: u8,
        meaning: Option<&'static str>,
    },
    NoMore,
    Refused(u8),
}

fn codes_of(cargo: &[u8]) -> Option<&[u8]> {
    match cargo {
        [ERROR_LIST_RESPONSE, codes @ ..] => Some(codes),
        _ => None,
    }
}

pub fn count_codes(cargo: &[u8]) -> CountAnswer {
    match codes_of(cargo) {
        Some(codes) => CountAnswer::Codes(codes.len()),
        None => CountAnswer::Refused(NOT_AN_ERROR_LIST),
    }
}

/// The code at a place counted from 0.
pub fn code_at(cargo: &[u8], place: usize) -> CodeAnswer {
    match codes_of(cargo).map(|codes| codes.get(place)) {
        None => CodeAnswer::Refused(NOT_AN_ERROR_LIST),
        Some(None) => CodeAnswer::NoMore,
        Some(Some(&code)) => CodeAnswer::Code { code, meaning: meaning_of(code) },
    }
}

pub fn meaning_of(code: u8) -> Option<&'static str> {
    MEANINGS.get(usize::from(code)).copied()
}
