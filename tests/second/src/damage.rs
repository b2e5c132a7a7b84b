//! Damage between two flags of a stream, and what stays as it was (02, request 5).

use crate::message::{MessageReader, ReadByte};
use crate::rng::Rng;
use crate::told::{told, Told, What};

/// A stream before and after the bytes between two of its flags were replaced.
#[derive(Clone, Debug)]
pub struct Damage {
    pub whole: Vec<u8>,
    pub damaged: Vec<u8>,
    /// The place of the first chosen flag, the same in both.
    pub first: usize,
    /// The places of the second chosen flag.
    pub second: usize,
    pub second_damaged: usize,
}

/// Where readings begin: a reader, and a buffer that matters only where the reader holds bytes.
#[derive(Clone, Debug)]
pub struct Start {
    pub reader: MessageReader,
    pub buffer: Vec<u8>,
}

impl Start {
    pub fn fresh(room: usize) -> Start {
        Start { reader: MessageReader::fresh(), buffer: vec![0; room] }
    }

    /// A buffer of the same length that holds the same, and anything behind it.
    pub fn buffer_alike(&self, rng: &mut Rng) -> Vec<u8> {
        let mut buffer = rng.bytes(self.buffer.len());
        let held = self.reader.held.min(buffer.len());
        buffer[..held].copy_from_slice(&self.buffer[..held]);
        buffer
    }

    pub fn told(&self, read_byte: ReadByte, rng: &mut Rng, stream: &[u8]) -> Vec<Told> {
        let mut reader = self.reader;
        told(read_byte, &mut reader, &mut self.buffer_alike(rng), stream)
    }
}

/// What a reader tells of both streams.
#[derive(Clone, Debug, PartialEq, Eq)]
pub struct Readings {
    pub whole: Vec<Told>,
    pub damaged: Vec<Told>,
}

/// What a reader tells of a stream in which two flags are chosen.
#[derive(Clone, Copy, Debug)]
pub struct Parts<'a> {
    /// Closed by the first chosen flag, or sooner.
    pub before: &'a [Told],
    /// Closed behind it, by the second chosen flag at the latest.
    pub between: &'a [Told],
    pub after: &'a [Told],
}

impl Parts<'_> {
    fn of(told: &[Told], first: usize, second: usize) -> Parts<'_> {
        let (up_to_second, after) = told.split_at(told.partition_point(|one| one.place <= second));
        let closed_before = up_to_second.partition_point(|one| one.place <= first);
        let (before, between) = up_to_second.split_at(closed_before);
        Parts { before, between, after }
    }
}

impl Damage {
    pub fn original(&self) -> &[u8] {
        &self.whole[self.first + 1..self.second]
    }

    pub fn replacement(&self) -> &[u8] {
        &self.damaged[self.first + 1..self.second_damaged]
    }

    pub fn readings(&self, mut read: impl FnMut(&[u8]) -> Vec<Told>) -> Readings {
        Readings { whole: read(&self.whole), damaged: read(&self.damaged) }
    }

    pub fn parts_of_whole<'a>(&self, readings: &'a Readings) -> Parts<'a> {
        Parts::of(&readings.whole, self.first, self.second)
    }

    pub fn parts_of_damaged<'a>(&self, readings: &'a Readings) -> Parts<'a> {
        Parts::of(&readings.damaged, self.first, self.second_damaged)
    }

    pub fn keeps_before(&self, readings: &Readings) -> bool {
        self.parts_of_whole(readings).before == self.parts_of_damaged(readings).before
    }

    /// Places are counted from the second chosen flag.
    pub fn keeps_after(&self, readings: &Readings) -> bool {
        let was = self.parts_of_whole(readings).after.iter();
        let is = self.parts_of_damaged(readings).after.iter();
        was.map(|told| (told.place - self.second, &told.what))
            .eq(is.map(|told| (told.place - self.second_damaged, &told.what)))
    }

    /// Whether a transfer comes from between that the whole stream has nowhere.
    pub fn tells_false(&self, readings: &Readings) -> bool {
        let sent = |what: &What| readings.whole.iter().any(|told| told.what == *what);
        let is_false = |told: &Told| matches!(told.what, What::Transfer(_)) && !sent(&told.what);
        self.parts_of_damaged(readings).between.iter().any(is_false)
    }
}
