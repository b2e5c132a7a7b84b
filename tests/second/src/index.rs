//! An index of an advertisement (02, request 1).

use crate::entry::{entry_at, EntryAnswer};
use crate::numbers::*;
use std::ops::Range;

pub const MOST_ENTRIES: usize = 64;

/// The first `count` places are the entries in the order they stand; a place is where a value
/// begins. `next` is where the next entry would begin.
#[derive(Clone, Debug, PartialEq, Eq)]
pub struct Index {
    pub tags: [u8; MOST_ENTRIES],
    pub places: [usize; MOST_ENTRIES],
    pub lengths: [usize; MOST_ENTRIES],
    pub count: usize,
    pub next: usize,
}

#[derive(Clone, Copy, Debug, PartialEq, Eq)]
pub enum Finding {
    Found { place: usize, length: usize },
    None,
    Refused(u8),
}

impl Index {
    pub fn empty(place: usize) -> Index {
        Index {
            tags: [0; MOST_ENTRIES],
            places: [0; MOST_ENTRIES],
            lengths: [0; MOST_ENTRIES],
            count: 0,
            next: place,
        }
    }

    /// The answer number and the index, which stays empty where it is refused.
    pub fn build(advertisement: &[u8], place: usize) -> (u8, Index) {
        let mut index = Index::empty(place);
        (index.extend(advertisement), index)
    }

    /// Lists the entries from `next` on; the advertisement is lent whole.
    pub fn extend(&mut self, advertisement: &[u8]) -> u8 {
        match self.extended(advertisement) {
            Ok(after) => {
                *self = after;
                DONE
            }
            Err(number) => number,
        }
    }

    /// The order 23, then entry by entry 34, 35, 38.
    fn extended(&self, advertisement: &[u8]) -> Result<Index, u8> {
        self.ask_sound(advertisement)?;
        let mut after = self.clone();
        loop {
            match entry_at(advertisement, after.next) {
                EntryAnswer::NoMore => return Ok(after),
                EntryAnswer::Refused(number) => return Err(number),
                EntryAnswer::Entry { tag, length, next, .. } => {
                    after.list(tag, usize::from(length), next)?;
                }
            }
        }
    }

    fn list(&mut self, tag: u8, length: usize, next: usize) -> Result<(), u8> {
        if self.count == MOST_ENTRIES {
            return Err(INDEX_FULL);
        }
        self.tags[self.count] = tag;
        self.places[self.count] = next - length;
        self.lengths[self.count] = length;
        self.count += 1;
        self.next = next;
        Ok(())
    }

    /// The value of a tag's occurrence, counted from 1.
    pub fn find(&self, advertisement: &[u8], tag: u8, occurrence: usize) -> Finding {
        if let Err(number) = self.ask_sound(advertisement) {
            return Finding::Refused(number);
        }
        let of_tag = (0..self.count).filter(|&entry| self.tags[entry] == tag);
        match of_tag.zip(1..).find(|&(_, met)| met == occurrence) {
            Some((entry, _)) => {
                Finding::Found { place: self.places[entry], length: self.lengths[entry] }
            }
            None => Finding::None,
        }
    }

    /// Where that value lies; where none is found, the empty part at the advertisement's start.
    pub fn value_range(&self, advertisement: &[u8], tag: u8, occurrence: usize) -> Range<usize> {
        match self.find(advertisement, tag, occurrence) {
            Finding::Found { place, length } => place..place + length,
            Finding::None | Finding::Refused(_) => 0..0,
        }
    }

    pub fn value<'a>(&self, advertisement: &'a [u8], tag: u8, occurrence: usize) -> &'a [u8] {
        &advertisement[self.value_range(advertisement, tag, occurrence)]
    }

    fn ask_sound(&self, advertisement: &[u8]) -> Result<(), u8> {
        let inside = |entry: usize| {
            let end = self.places[entry].checked_add(self.lengths[entry]);
            end.is_some_and(|end| end <= advertisement.len())
        };
        let sound = self.count <= MOST_ENTRIES && (0..self.count).all(inside);
        sound.then_some(()).ok_or(UNSOUND)
    }
}
