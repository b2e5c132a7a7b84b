//! A call's arguments as bytes, in the form that tests/driver/driver.c describes. They have the
//! names of include/boherlin.h, so that a call can be shown.

use crate::cases::{Case, Part};
use crate::show::values;
use std::ops::Range;

const USUAL_BYTES: usize = 256;
const USUAL_ARGUMENTS: usize = 8;

pub struct Request {
    pub bytes: Vec<u8>,
    arguments: Vec<Argument>,
}

struct Argument {
    name: &'static str,
    /// Bytes of one place.
    width: usize,
    stands: Range<usize>,
}

impl Request {
    pub fn new() -> Request {
        let bytes = Vec::with_capacity(USUAL_BYTES);
        Request { bytes, arguments: Vec::with_capacity(USUAL_ARGUMENTS) }
    }

    pub fn number(self, name: &'static str, number: usize) -> Request {
        self.numbers(name, &[number as u64])
    }

    /// Numbers without their count.
    pub fn numbers(self, name: &'static str, numbers: &[u64]) -> Request {
        self.argument(name, 8, |bytes| append_numbers(bytes, numbers))
    }

    pub fn row(self, name: &'static str, row: &[u64]) -> Request {
        self.count(row.len()).numbers(name, row)
    }

    /// Bytes without their count.
    pub fn plain(self, name: &'static str, plain: &[u8]) -> Request {
        self.argument(name, 1, |bytes| bytes.extend_from_slice(plain))
    }

    pub fn bytes(self, name: &'static str, bytes: &[u8]) -> Request {
        self.count(bytes.len()).plain(name, bytes)
    }

    pub fn counts(self, name: &'static str, counts: &[u32]) -> Request {
        let append =
            |bytes: &mut Vec<u8>| bytes.extend(counts.iter().flat_map(|count| count.to_le_bytes()));
        self.count(counts.len()).argument(name, 4, append)
    }

    pub fn expects(self, expected: impl Into<Vec<Part>>) -> Case {
        Case { request: self, expected: expected.into() }
    }

    /// A line for each argument.
    pub fn text(&self) -> String {
        let line = |argument: &Argument| {
            let Argument { name, width, stands } = argument;
            format!("    {name}: {}\n", values(&self.bytes[stands.clone()], *width))
        };
        self.arguments.iter().map(line).collect()
    }

    fn count(mut self, count: usize) -> Request {
        append_numbers(&mut self.bytes, &[count as u64]);
        self
    }

    fn argument(
        mut self,
        name: &'static str,
        width: usize,
        append: impl FnOnce(&mut Vec<u8>),
    ) -> Request {
        let start = self.bytes.len();
        append(&mut self.bytes);
        self.arguments.push(Argument { name, width, stands: start..self.bytes.len() });
        self
    }
}

fn append_numbers(bytes: &mut Vec<u8>, numbers: &[u64]) {
    bytes.reserve(8 * numbers.len());
    for number in numbers {
        bytes.extend_from_slice(&number.to_le_bytes());
    }
}

pub fn numbers_as_bytes(numbers: &[u64]) -> Vec<u8> {
    let mut bytes = Vec::new();
    append_numbers(&mut bytes, numbers);
    bytes
}
