//! One compared call: its arguments, and what the second program makes of them.

use crate::damages;
use crate::request::{numbers_as_bytes, Request};
use crate::show::value;
use crate::{entries, headers, indexes, lines, messages, odometers};
use crate::{permits, receivers, senders, tallies};
use second::rng::Rng;

/// What the driver has to answer, part by part.
pub struct Part {
    pub name: &'static str,
    /// Bytes of one place.
    pub width: usize,
    pub bytes: Vec<u8>,
}

impl Part {
    /// One place of it, or of what stands there instead; an answer's number is decimal.
    pub fn text_of(&self, place: &[u8]) -> String {
        match place {
            [number] if self.name == NUMBER => number.to_string(),
            _ => value(place),
        }
    }
}

pub struct Case {
    pub request: Request,
    pub expected: Vec<Part>,
}

impl Case {
    /// The scope paper's number that is due, where the function answers with one.
    pub fn answer_number(&self) -> Option<u8> {
        self.expected.iter().find(|part| part.name == NUMBER).map(|part| part.bytes[0])
    }

    /// What a part holds after the call.
    pub fn after(&self, name: &str) -> &[u8] {
        let part = self.expected.iter().find(|part| part.name == name);
        &part.expect("the name of a part").bytes
    }
}

/// A call of the driver by its name, and the maker of cases for it.
pub struct Compared {
    pub name: &'static str,
    pub make: fn(&mut Rng) -> Case,
}

const NUMBER: &str = "number";

pub const COMPARED: &[Compared] = &[
    Compared { name: "take", make: receivers::take },
    Compared { name: "copy_counts", make: receivers::copy_counts },
    Compared { name: "clear_counts", make: receivers::clear_counts },
    Compared { name: "send", make: senders::send },
    Compared { name: "abandon", make: senders::abandon },
    Compared { name: "write", make: messages::write },
    Compared { name: "write_query", make: messages::write_query },
    Compared { name: "write_notice", make: messages::write_notice },
    Compared { name: "step", make: messages::step },
    Compared { name: "read", make: messages::read },
    Compared { name: "listen", make: messages::listen },
    Compared { name: "fresh_receiver", make: receivers::fresh_receiver },
    Compared { name: "fresh_sender", make: senders::fresh_sender },
    Compared { name: "told", make: receivers::told },
    Compared { name: "delivered", make: receivers::delivered },
    Compared { name: "is_sound", make: receivers::is_sound },
    Compared { name: "heading", make: lines::heading },
    Compared { name: "line", make: lines::line },
    Compared { name: "read_header", make: headers::read_header },
    Compared { name: "write_header", make: headers::write_header },
    Compared { name: "first_number", make: headers::first_number },
    Compared { name: "next_number", make: headers::next_number },
    Compared { name: "gap", make: headers::gap },
    Compared { name: "entry_at", make: entries::entry_at },
    Compared { name: "next_entry", make: entries::next_entry },
    Compared { name: "value_at", make: entries::value_at },
    Compared { name: "write_entry", make: entries::write_entry },
    Compared { name: "count_codes", make: entries::count_codes },
    Compared { name: "code_at", make: entries::code_at },
    Compared { name: "meaning_of", make: entries::meaning_of },
    Compared { name: "step_in", make: receivers::step_in },
    Compared { name: "slot", make: receivers::slot },
    Compared { name: "outside", make: messages::outside },
    Compared { name: "tally_messages", make: tallies::tally_messages },
    Compared { name: "tally_stream", make: tallies::tally_stream },
    Compared { name: "fresh_odometer", make: odometers::fresh },
    Compared { name: "hear", make: odometers::hear },
    Compared { name: "hear_answer", make: odometers::hear_answer },
    Compared { name: "distance", make: odometers::distance },
    Compared { name: "total_in", make: odometers::total_in },
    Compared { name: "build_index", make: indexes::build },
    Compared { name: "extend_index", make: indexes::extend },
    Compared { name: "find_tag", make: indexes::find },
    Compared { name: "tag_value", make: indexes::value },
    Compared { name: "grant", make: permits::grant },
    Compared { name: "permitted_send", make: permits::send },
    Compared { name: "permitted_message", make: permits::message },
];

/// The calls that a driver must have, and no other.
pub fn names_in_use() -> Vec<&'static str> {
    let compared = COMPARED.iter().map(|compared| compared.name);
    compared.chain([damages::BY_BYTES, damages::IN_SLICES]).collect()
}

pub fn number(number: u8) -> Part {
    Part { name: NUMBER, width: 1, bytes: vec![number] }
}

pub fn row(name: &'static str, numbers: &[u64]) -> Part {
    Part { name, width: 8, bytes: numbers_as_bytes(numbers) }
}

pub fn bytes(name: &'static str, bytes: impl Into<Vec<u8>>) -> Part {
    Part { name, width: 1, bytes: bytes.into() }
}

pub fn counts(name: &'static str, counts: &[u32]) -> Part {
    let bytes = counts.iter().flat_map(|count| count.to_le_bytes()).collect();
    Part { name, width: 4, bytes }
}

/// What a function that writes to an output has to answer.
pub fn written((told, written): (u8, usize), out: Vec<u8>) -> [Part; 3] {
    [number(told), bytes("out", out), row("written", &[written as u64])]
}

/// A part by its place and length; an empty one has no place here.
pub fn part(start: usize, length: usize) -> Part {
    let start = if length == 0 { 0 } else { start };
    row("part", &[start as u64, length as u64])
}

/// A row of another length, now and then: it is refused with 23 and nothing changes.
pub fn wrong_length(rng: &mut Rng, row: &mut Vec<u64>) {
    if rng.percent(2) {
        let right = row.len();
        let length = rng.pick(&[0, 1, right - 1, right + 1, 2 * right]);
        row.resize(length, 7);
    }
}

pub fn random_numbers(rng: &mut Rng, count: usize) -> Vec<u64> {
    (0..count).map(|_| rng.next_u64()).collect()
}

#[cfg(test)]
mod tests {
    use super::*;
    use std::collections::BTreeSet;

    /// Numbers as a shrinker has them, few of them large.
    fn any_numbers(seed: u64) -> Vec<u64> {
        let rng = &mut Rng::new(seed);
        let any = |rng: &mut Rng| {
            let (any, small) = (rng.next_u64(), rng.below(8) as u64);
            rng.pick(&[0, 0, small, small << 16, small << 56, u64::MAX, any])
        };
        (0..rng.below(400)).map(|_| any(rng)).collect()
    }

    #[test]
    fn any_numbers_make_a_case_and_what_they_leave_makes_it_again() {
        for Compared { name, make } in COMPARED {
            for seed in 0..500 {
                let rng = &mut Rng::playing(any_numbers(seed));
                let case = make(rng);
                let again = make(&mut Rng::playing(rng.clone().drawn()));
                assert_eq!(case.request.text(), again.request.text(), "{name}, seed {seed}");
                assert!(!case.expected.is_empty(), "{name}");
            }
        }
    }

    #[test]
    fn a_name_stands_for_one_call() {
        let names = names_in_use();
        assert_eq!(names.iter().collect::<BTreeSet<_>>().len(), names.len());
    }
}
