//! Compared calls on an index of an advertisement.

use crate::cases::{bytes, number, part, row, Case, Part};
use crate::request::Request;
use second::gen;
use second::index::{Finding, Index};
use second::numbers::DONE;
use second::rng::Rng;

fn wide(numbers: &[usize]) -> Vec<u64> {
    numbers.iter().map(|&number| number as u64).collect()
}

/// The cargo and the lists, as they must be after a call.
fn listed_parts(cargo: &[u8], index: &Index) -> [Part; 4] {
    [
        bytes("cargo", cargo),
        bytes("tags", index.tags),
        row("places", &wide(&index.places)),
        row("lengths", &wide(&index.lengths)),
    ]
}

fn index_case(request: Request, answer: u8, cargo: &[u8], index: &Index) -> Case {
    let mut expected = vec![number(answer)];
    expected.extend(listed_parts(cargo, index));
    expected.push(row("count and next", &wide(&[index.count, index.next])));
    request.expects(expected)
}

fn listed_request(cargo: &[u8], index: &Index) -> Request {
    let request = Request::new().bytes("cargo", cargo).plain("tags", &index.tags);
    let request = request.numbers("places", &wide(&index.places));
    request.numbers("lengths", &wide(&index.lengths)).number("count", index.count)
}

/// The index that is built, too.
pub fn build_case(cargo: &[u8], place: usize) -> (Case, Index) {
    let request = Request::new().bytes("cargo", cargo).number("place", place);
    let (answer, index) = Index::build(cargo, place);
    (index_case(request, answer, cargo, &index), index)
}

pub fn build(rng: &mut Rng) -> Case {
    let (cargo, place) = gen::advertisement_to_index(rng);
    build_case(&cargo, place).0
}

pub fn extend_case(index: &mut Index, cargo: &[u8]) -> Case {
    let request = listed_request(cargo, index).number("next", index.next);
    let answer = index.extend(cargo);
    index_case(request, answer, cargo, index)
}

pub fn extend(rng: &mut Rng) -> Case {
    let (cargo, start) = gen::advertisement_to_index(rng);
    extend_case(&mut gen::index(rng, &cargo, start), &cargo)
}

/// A question to an index of a cargo.
pub struct Question {
    pub tag: u8,
    pub occurrence: usize,
}

fn question_request(cargo: &[u8], index: &Index, question: &Question) -> Request {
    let request = listed_request(cargo, index).number("tag", usize::from(question.tag));
    request.number("occurrence", question.occurrence)
}

pub fn find_case(index: &Index, cargo: &[u8], question: &Question) -> Case {
    let (answer, told) = match index.find(cargo, question.tag, question.occurrence) {
        Finding::Found { place, length } => (DONE, [0, place as u64, length as u64]),
        Finding::None => (DONE, [1, 0, 0]),
        Finding::Refused(number) => (number, [2, 0, 0]),
    };
    let mut expected = vec![number(answer)];
    expected.extend(listed_parts(cargo, index));
    expected.push(row("told", &told));
    question_request(cargo, index, question).expects(expected)
}

pub fn value_case(index: &Index, cargo: &[u8], question: &Question) -> Case {
    let range = index.value_range(cargo, question.tag, question.occurrence);
    let mut expected = Vec::from(listed_parts(cargo, index));
    expected.push(part(range.start, range.len()));
    question_request(cargo, index, question).expects(expected)
}

/// A cargo, an index of it and a question.
fn asked(rng: &mut Rng) -> (Vec<u8>, Index, Question) {
    let (cargo, start) = gen::advertisement_to_index(rng);
    let index = gen::index(rng, &cargo, start);
    let (tag, occurrence) = gen::question(rng, &index);
    (cargo, index, Question { tag, occurrence })
}

pub fn find(rng: &mut Rng) -> Case {
    let (cargo, index, question) = asked(rng);
    find_case(&index, &cargo, &question)
}

pub fn value(rng: &mut Rng) -> Case {
    let (cargo, index, question) = asked(rng);
    value_case(&index, &cargo, &question)
}
