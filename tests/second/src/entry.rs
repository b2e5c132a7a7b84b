//! Advertisement entries (01, "Advertisement and error list"; 004, 5.2 and 5.3).

use crate::numbers::*;
use std::ops::Range;

const ENTRY_HEAD: usize = 2;
const LONGEST_VALUE: usize = 255;

/// A tag of 004's two tag tables; `None` where no length is fixed.
#[derive(Clone, Copy, Debug, PartialEq, Eq)]
pub struct KnownTag {
    pub tag: u8,
    pub length: Option<u8>,
}

const fn any_length(tag: u8) -> KnownTag {
    KnownTag { tag, length: None }
}

/// Tags 1 to 9 (5.2), 0x80 and 0x81 (5.3). The timeout is a 32-bit number.
pub const KNOWN_TAGS: [KnownTag; 11] = [
    any_length(1),
    any_length(2),
    any_length(3),
    any_length(4),
    any_length(5),
    any_length(6),
    any_length(7),
    any_length(8),
    any_length(9),
    any_length(0x80),
    KnownTag { tag: 0x81, length: Some(4) },
];

#[derive(Clone, Copy, Debug, PartialEq, Eq)]
pub enum Mark {
    Known,
    Unknown,
    OtherLength,
}

#[derive(Clone, Copy, Debug, PartialEq, Eq)]
pub enum EntryAnswer {
    Entry { tag: u8, length: u8, next: usize, mark: Mark },
    NoMore,
    Refused(u8),
}

pub fn mark_of(tag: u8, length: u8) -> Mark {
    match KNOWN_TAGS.iter().find(|known| known.tag == tag) {
        None => Mark::Unknown,
        Some(KnownTag { length: None, .. }) => Mark::Known,
        Some(KnownTag { length: Some(fixed), .. }) if *fixed == length => Mark::Known,
        Some(_) => Mark::OtherLength,
    }
}

/// The entry that begins at a place.
pub fn entry_at(advertisement: &[u8], place: usize) -> EntryAnswer {
    match advertisement.get(place..).unwrap_or(&[]) {
        [] => EntryAnswer::NoMore,
        [_] => EntryAnswer::Refused(ENTRY_CUT),
        [_, length, value @ ..] if value.len() < usize::from(*length) => {
            EntryAnswer::Refused(VALUE_CUT)
        }
        &[tag, length, ..] => EntryAnswer::Entry {
            tag,
            length,
            next: place + ENTRY_HEAD + usize::from(length),
            mark: mark_of(tag, length),
        },
    }
}

/// Where the value of the entry at a place lies; for every answer that is no
/// entry, the empty part at the advertisement's end.
pub fn value_range(advertisement: &[u8], place: usize) -> Range<usize> {
    let EntryAnswer::Entry { next, .. } = entry_at(advertisement, place) else {
        return advertisement.len()..advertisement.len();
    };
    place + ENTRY_HEAD..next
}

pub fn value_at(advertisement: &[u8], place: usize) -> &[u8] {
    &advertisement[value_range(advertisement, place)]
}

/// Writes an entry: the answer number and the bytes written.
pub fn write_entry(tag: u8, value: &[u8], out: &mut [u8]) -> (u8, usize) {
    if value.len() > LONGEST_VALUE {
        return (VALUE_ABOVE_255, 0);
    }
    let size = ENTRY_HEAD + value.len();
    if out.len() < size {
        return (OUTPUT_SHORT, 0);
    }
    out[0] = tag;
    out[1] = value.len() as u8;
    out[ENTRY_HEAD..size].copy_from_slice(value);
    (DONE, size)
}

/// An advertisement opened for reading; it keeps its place.
#[derive(Clone, Debug, PartialEq, Eq)]
pub struct OpenAdvertisement<'a> {
    pub advertisement: &'a [u8],
    pub place: usize,
}

impl<'a> OpenAdvertisement<'a> {
    pub fn open(advertisement: &'a [u8], place: usize) -> OpenAdvertisement<'a> {
        OpenAdvertisement { advertisement, place }
    }

    /// The next entry and its value; the place moves only past an entry.
    pub fn next_entry(&mut self) -> (EntryAnswer, &'a [u8]) {
        let found = entry_at(self.advertisement, self.place);
        let value = value_at(self.advertisement, self.place);
        if let EntryAnswer::Entry { next, .. } = found {
            self.place = next;
        }
        (found, value)
    }
}
