//! Compared calls on advertisements and error lists.

use crate::cases::{number, part, row, written, Case};
use crate::request::Request;
use second::entry::{self, EntryAnswer, Mark, OpenAdvertisement, KNOWN_TAGS};
use second::error_list::{self, CodeAnswer, CountAnswer, MEANINGS};
use second::gen;
use second::numbers::DONE;
use second::rng::Rng;

/// An advertisement, or one entry alone, whole or cut: so every tag comes with every small length.
fn cargo_and_place(rng: &mut Rng) -> (Vec<u8>, usize) {
    if rng.percent(50) {
        let cargo = gen::advertisement(rng);
        let place = gen::place(rng, cargo.len());
        return (cargo, place);
    }
    let (any, known) = (rng.byte(), rng.pick(&KNOWN_TAGS).tag);
    let tag = rng.pick(&[any, known]);
    let (place, length, behind) = (rng.below(3), rng.below(7), rng.below(2));
    let mut cargo = rng.bytes(place);
    cargo.extend([tag, length as u8]);
    cargo.extend(rng.bytes(length + behind));
    if rng.percent(20) {
        cargo.truncate(rng.below(cargo.len()));
    }
    (cargo, place)
}

fn entry_numbers(answer: EntryAnswer) -> (u8, [u64; 5]) {
    match answer {
        EntryAnswer::Entry { tag, length, next, mark } => {
            let mark = match mark {
                Mark::Known => 0,
                Mark::Unknown => 1,
                Mark::OtherLength => 2,
            };
            (DONE, [0, u64::from(tag), u64::from(length), next as u64, mark])
        }
        EntryAnswer::NoMore => (DONE, [1, 0, 0, 0, 0]),
        EntryAnswer::Refused(number) => (number, [2, 0, 0, 0, 0]),
    }
}

fn place_request(cargo: &[u8], place: usize) -> Request {
    Request::new().bytes("cargo", cargo).number("place", place)
}

pub fn entry_at_case(cargo: &[u8], place: usize) -> Case {
    let (answer, told) = entry_numbers(entry::entry_at(cargo, place));
    place_request(cargo, place).expects([number(answer), row("told", &told)])
}

pub fn entry_at(rng: &mut Rng) -> Case {
    let (cargo, place) = cargo_and_place(rng);
    entry_at_case(&cargo, place)
}

/// Moves the advertisement's place on.
pub fn next_entry_case(open: &mut OpenAdvertisement) -> Case {
    let request = place_request(open.advertisement, open.place);
    let (answer, told) = entry_numbers(open.next_entry().0);
    let place = row("place", &[open.place as u64]);
    request.expects([number(answer), place, row("told", &told)])
}

pub fn next_entry(rng: &mut Rng) -> Case {
    let (cargo, place) = cargo_and_place(rng);
    next_entry_case(&mut OpenAdvertisement::open(&cargo, place))
}

pub fn value_at_case(cargo: &[u8], place: usize) -> Case {
    let range = entry::value_range(cargo, place);
    place_request(cargo, place).expects([part(range.start, range.len())])
}

pub fn value_at(rng: &mut Rng) -> Case {
    let (cargo, place) = cargo_and_place(rng);
    value_at_case(&cargo, place)
}

pub fn write_entry_case(tag: u8, value: &[u8], mut out: Vec<u8>) -> Case {
    let request = Request::new().number("tag", usize::from(tag));
    let request = request.bytes("value", value).bytes("out", &out);
    let told = entry::write_entry(tag, value, &mut out);
    request.expects(written(told, out))
}

pub fn write_entry(rng: &mut Rng) -> Case {
    let tag = rng.byte();
    let any = rng.below(20);
    let length = rng.pick(&[0, 1, 254, 255, 256, 257, any, any, any, any]);
    let value = rng.bytes(length);
    let room = gen::lent_length(rng, length + 2);
    write_entry_case(tag, &value, rng.bytes(room))
}

pub fn count_codes_case(cargo: &[u8]) -> Case {
    let (answer, count) = match error_list::count_codes(cargo) {
        CountAnswer::Codes(count) => (DONE, count),
        CountAnswer::Refused(number) => (number, 0),
    };
    let request = Request::new().bytes("cargo", cargo);
    request.expects([number(answer), row("count", &[count as u64])])
}

pub fn count_codes(rng: &mut Rng) -> Case {
    count_codes_case(&gen::error_list(rng))
}

/// A meaning's line in 004's table, or the number of lines.
fn line_in_table(meaning: Option<&str>) -> u64 {
    let line = MEANINGS.iter().position(|&known| Some(known) == meaning);
    line.unwrap_or(MEANINGS.len()) as u64
}

pub fn code_at_case(cargo: &[u8], place: usize) -> Case {
    let (answer, told) = match error_list::code_at(cargo, place) {
        CodeAnswer::Code { code, meaning } => (DONE, [0, u64::from(code), line_in_table(meaning)]),
        CodeAnswer::NoMore => (DONE, [1, 0, 0]),
        CodeAnswer::Refused(number) => (number, [2, 0, 0]),
    };
    place_request(cargo, place).expects([number(answer), row("told", &told)])
}

pub fn code_at(rng: &mut Rng) -> Case {
    let cargo = gen::error_list(rng);
    let place = gen::place(rng, cargo.len().saturating_sub(1));
    code_at_case(&cargo, place)
}

pub fn meaning_of(rng: &mut Rng) -> Case {
    let (any, small) = (rng.byte(), rng.below(16) as u8);
    let code = rng.pick(&[any, small]);
    let meaning = line_in_table(error_list::meaning_of(code));
    let request = Request::new().number("code", usize::from(code));
    request.expects([row("meaning", &[meaning])])
}
