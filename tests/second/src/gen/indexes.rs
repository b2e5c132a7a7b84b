//! For the index of an advertisement: advertisements of many small entries, indexes over them,
//! questions.

use super::{place, WIDE};
use crate::entry::{entry_at, EntryAnswer};
use crate::index::{Index, MOST_ENTRIES};
use crate::rng::Rng;

/// Few, so that they repeat.
const TAGS: [u8; 5] = [0, 1, 6, 9, 0x81];

/// An advertisement, often of as many entries as an index has room for or one more, and the place
/// where its walk begins.
pub fn advertisement_to_index(rng: &mut Rng) -> (Vec<u8>, usize) {
    let front = rng.below(3);
    let mut bytes = rng.bytes(front);
    for _ in 0..entry_count(rng) {
        push_entry(rng, &mut bytes);
    }
    damage_end(rng, &mut bytes);
    let start = if rng.percent(85) { front } else { place(rng, bytes.len()) };
    (bytes, start)
}

fn entry_count(rng: &mut Rng) -> usize {
    match rng.below(10) {
        0..=2 => MOST_ENTRIES,
        3 | 4 => MOST_ENTRIES + 1,
        5 => rng.pick(&[MOST_ENTRIES - 1, MOST_ENTRIES + 2]),
        6 => rng.below(71),
        _ => rng.below(12),
    }
}

fn push_entry(rng: &mut Rng, bytes: &mut Vec<u8>) {
    let length = if rng.percent(2) { rng.below(256) } else { rng.below(4) };
    bytes.extend([rng.pick(&TAGS), length as u8]);
    bytes.extend(rng.bytes(length));
}

/// Most often leaves it whole; else its last entry is cut in the head or in the value.
fn damage_end(rng: &mut Rng, bytes: &mut Vec<u8>) {
    match rng.below(12) {
        0 | 1 => bytes.push(rng.pick(&TAGS)),
        2 | 3 => {
            let (length, missing) = (rng.between(1, 6), rng.below(6));
            bytes.extend([rng.pick(&TAGS), length as u8]);
            bytes.extend(rng.bytes(length.saturating_sub(1 + missing)));
        }
        4 => bytes.truncate(rng.below(bytes.len() + 1)),
        _ => {}
    }
}

/// An index built over a front of the advertisement or over all of it, then perhaps spoiled.
pub fn index(rng: &mut Rng, advertisement: &[u8], start: usize) -> Index {
    let stops = stops_of_walk(advertisement, start);
    let last = stops.len() - 1;
    let any = rng.below(stops.len());
    let stop = stops[rng.pick(&[last, last.min(MOST_ENTRIES), any])];
    let front = &advertisement[..stop.min(advertisement.len())];
    let (_, mut index) = Index::build(front, start);
    if rng.percent(60) {
        leave_behind(rng, &mut index);
    }
    for _ in 0..rng.pick(&[0, 0, 0, 1, 1, 2]) {
        spoil(rng, &mut index, advertisement.len());
    }
    index
}

/// Where a walk stands, from its start to where it gets no further.
fn stops_of_walk(advertisement: &[u8], start: usize) -> Vec<usize> {
    let mut stops = vec![start];
    let mut stop = start;
    while let EntryAnswer::Entry { next, .. } = entry_at(advertisement, stop) {
        stops.push(next);
        stop = next;
    }
    stops
}

/// Something in the places behind the entries, where nothing may be judged or changed.
fn leave_behind(rng: &mut Rng, index: &mut Index) {
    for behind in index.count..MOST_ENTRIES {
        let any = rng.next_u64() as usize;
        index.tags[behind] = rng.pick(&TAGS);
        index.places[behind] = rng.pick(&[0, 1, any]);
        index.lengths[behind] = rng.pick(&[0, 1, any]);
    }
}

/// One change: of an entry to touch the end or to pass it, of the count or of the next place.
fn spoil(rng: &mut Rng, index: &mut Index, end: usize) {
    let (wide, few) = (rng.pick(&WIDE), rng.below(4));
    let entry = rng.below(index.count.min(MOST_ENTRIES - 1) + 1);
    let (listed, length) = (&mut index.places[entry], &mut index.lengths[entry]);
    match rng.below(10) {
        0 => index.count = rng.pick(&[MOST_ENTRIES, MOST_ENTRIES + 1, MOST_ENTRIES + 2, wide]),
        1 => index.count = rng.below(index.count.min(MOST_ENTRIES) + 1),
        2 => *listed = end.saturating_sub(*length),
        3 => *listed = (end + 1).saturating_sub(*length),
        4 => *length = end.saturating_sub(*listed),
        5 => *length = (end + 1).saturating_sub(*listed),
        6 if few < 2 => *listed = wide,
        6 => *length = wide,
        7 => (*listed, *length) = (usize::MAX - few, few + rng.below(3)),
        _ => index.next = place(rng, end),
    }
}

/// A tag and an occurrence, most often near the last one that is listed.
pub fn question(rng: &mut Rng, index: &Index) -> (u8, usize) {
    let any_tag = rng.byte();
    let tag = if rng.percent(90) { rng.pick(&TAGS) } else { any_tag };
    let listed = &index.tags[..index.count.min(MOST_ENTRIES)];
    let times = listed.iter().filter(|&&one| one == tag).count();
    let occurrence = match rng.below(10) {
        0 => rng.below(2),
        1 => rng.pick(&WIDE),
        2 => index.count.saturating_add(1),
        3 => times + 1,
        4 => times,
        _ => rng.between(1, times.max(2)),
    };
    (tag, occurrence)
}
