//! The index of an advertisement (02, request 1): its sentences as cases worked out by hand, then as
//! rules that are tried on generated inputs.

use second::entry::{entry_at, value_at, EntryAnswer};
use second::field::hub_advertisement;
use second::gen;
use second::index::Finding::{Found, Refused};
use second::index::*;
use second::rng::Rng;
use std::collections::BTreeSet;

/// Tag 6 with one byte, tag 9 with two, tag 6 with none.
const THREE: [u8; 9] = [6, 1, 5, 9, 2, 0x61, 0, 6, 0];

/// Entries of tag 6, each with its number as its value.
fn entries(count: u8) -> Vec<u8> {
    (0..count).flat_map(|number| [6, 1, number]).collect()
}

fn built(advertisement: &[u8], place: usize) -> Index {
    let (number, index) = Index::build(advertisement, place);
    assert_eq!(number, 0);
    index
}

/// What extending answers where it must leave the index alone.
fn left_alone(before: &Index, advertisement: &[u8]) -> u8 {
    let mut index = before.clone();
    let number = index.extend(advertisement);
    assert_eq!(index, *before);
    number
}

fn left_empty(advertisement: &[u8], place: usize) -> u8 {
    let (number, index) = Index::build(advertisement, place);
    assert_eq!(index, Index::empty(place));
    number
}

/// Where a value lies, asserting that the part handed back is the same.
fn found(index: &Index, advertisement: &[u8], tag: u8, occurrence: usize) -> Finding {
    let finding = index.find(advertisement, tag, occurrence);
    let part = match finding {
        Found { place, length } => place..place + length,
        _ => 0..0,
    };
    assert_eq!(index.value_range(advertisement, tag, occurrence), part);
    assert_eq!(index.value(advertisement, tag, occurrence), &advertisement[part]);
    finding
}

/// The place and length that a plain walk reaches at an occurrence.
fn walked(advertisement: &[u8], start: usize, tag: u8, occurrence: usize) -> Finding {
    let (mut place, mut met) = (start, 0);
    while let EntryAnswer::Entry { tag: one, length, next, .. } = entry_at(advertisement, place) {
        met += usize::from(one == tag);
        if one == tag && met == occurrence {
            return Found { place: place + 2, length: usize::from(length) };
        }
        place = next;
    }
    Finding::None
}

#[test]
fn entries_are_listed_in_the_order_they_stand() {
    let mut due = Index::empty(0);
    due.tags[..3].copy_from_slice(&[6, 9, 6]);
    due.places[..3].copy_from_slice(&[2, 5, 9]);
    due.lengths[..3].copy_from_slice(&[1, 2, 0]);
    (due.count, due.next) = (3, 9);
    assert_eq!(built(&THREE, 0), due);
    let behind_a_byte = [&[0][..], &THREE].concat();
    assert_eq!(built(&behind_a_byte, 1).places[..3], [3, 6, 10]);
}

#[test]
fn an_empty_index() {
    let zeros = [0; 64];
    let due = Index { tags: [0; 64], places: zeros, lengths: zeros, count: 0, next: 7 };
    assert_eq!(Index::empty(7), due);
    for (advertisement, place) in [(&[][..], 0), (&THREE, 9), (&THREE, 10), (&THREE, usize::MAX)] {
        assert_eq!(built(advertisement, place), Index::empty(place));
    }
}

#[test]
fn questions() {
    let index = built(&THREE, 0);
    for (tag, occurrence, due) in [
        (6, 1, Found { place: 2, length: 1 }),
        (6, 2, Found { place: 9, length: 0 }),
        (6, 3, Finding::None),
        (9, 1, Found { place: 5, length: 2 }),
        (9, 2, Finding::None),
        (9, 0, Finding::None),
        (6, usize::MAX, Finding::None),
        (8, 1, Finding::None),
        (8, 0, Finding::None),
        // Places behind the entries hold tag 0.
        (0, 1, Finding::None),
    ] {
        assert_eq!(found(&index, &THREE, tag, occurrence), due, "{tag} {occurrence}");
    }
    assert_eq!(found(&Index::empty(0), &THREE, 6, 1), Finding::None);
    assert_eq!(index.value(&THREE, 9, 1), [0x61, 0]);
}

#[test]
fn damaged_entries() {
    assert_eq!(left_empty(&THREE[..8], 0), 34);
    assert_eq!(left_empty(&THREE[..6], 0), 35);
    assert_eq!(left_empty(&THREE[..5], 0), 35);
    assert_eq!(left_empty(&[6], 0), 34);
    assert_eq!(left_empty(&[6, 1], 0), 35);
    // What stands before the first place is no entry.
    assert_eq!(built(&[6, 1, 0, 9, 0], 3).count, 1);
}

#[test]
fn there_is_room_for_64_entries() {
    let full = entries(64);
    let index = built(&full, 0);
    assert_eq!((index.count, index.next), (64, 192));
    for occurrence in 1..=64 {
        let due = Found { place: 3 * occurrence - 1, length: 1 };
        assert_eq!(found(&index, &full, 6, occurrence), due);
        assert_eq!(index.value(&full, 6, occurrence), [occurrence as u8 - 1]);
    }
    assert_eq!(found(&index, &full, 6, 65), Finding::None);
    for (behind, number) in [(&[9, 0][..], 38), (&[9], 34), (&[9, 1], 35), (&[9, 0, 9], 38)] {
        let more = [&full[..], behind].concat();
        assert_eq!(left_empty(&more, 0), number);
        assert_eq!(left_alone(&index, &more), number);
        // The earlier entries can still be asked for.
        assert_eq!(found(&index, &more, 6, 64), Found { place: 191, length: 1 });
    }
    assert_eq!(left_alone(&index, &full), 0);
    assert_eq!(left_empty(&entries(66), 0), 38);
    assert_eq!(built(&entries(65), 3).count, 64);
}

#[test]
fn adding_in_steps_is_building_once() {
    let mut index = Index::empty(0);
    for (end, count) in [(0, 0), (3, 1), (3, 1), (7, 2), (9, 3)] {
        let before = index.clone();
        assert_eq!(index.extend(&THREE[..end]), 0);
        assert_eq!((index.count, index.next), (count, end));
        assert_eq!(index, built(&THREE[..end], 0));
        assert_kept(&before, &index);
    }
}

#[test]
fn refused_adding_leaves_the_index_as_it_was() {
    let index = built(&THREE[..3], 0);
    assert_eq!(left_alone(&index, &THREE[..4]), 34);
    assert_eq!(left_alone(&index, &THREE[..6]), 35);
    // Here one entry is good before the damage.
    assert_eq!(left_alone(&index, &THREE[..8]), 34);
    let near_full = built(&entries(63), 0);
    assert_eq!(left_alone(&near_full, &entries(65)), 38);
}

#[test]
fn places_behind_the_entries_hold_what_they_held() {
    let mut index = built(&THREE[..3], 0);
    for behind in 1..64 {
        index.tags[behind] = 6;
        index.places[behind] = usize::MAX;
        index.lengths[behind] = usize::MAX;
    }
    assert_eq!(found(&index, &THREE, 6, 2), Finding::None);
    assert_eq!(left_alone(&index, &THREE[..4]), 34);
    let before = index.clone();
    assert_eq!(index.extend(&THREE), 0);
    assert_eq!((index.count, index.next), (3, 9));
    assert_kept(&before, &index);
    assert_added(&before, &index, &THREE);
}

fn unsound(index: &Index, advertisement: &[u8]) -> bool {
    let refused = left_alone(index, advertisement) == 23;
    for occurrence in [0, 1, 2, usize::MAX] {
        for tag in [6, 8] {
            let answer = found(index, advertisement, tag, occurrence);
            assert_eq!(answer == Refused(23), refused);
        }
    }
    refused
}

#[test]
fn an_index_of_over_64_entries() {
    let full = entries(64);
    let of = |count| Index { count, ..built(&full, 0) };
    assert!(!unsound(&of(64), &full));
    for count in [65, 66, 256, 65_600, (1 << 32) + 1, usize::MAX] {
        assert!(unsound(&of(count), &full));
        assert!(unsound(&Index { count, ..Index::empty(0) }, &[]));
    }
}

#[test]
fn a_value_outside_the_advertisement() {
    let with = |place, length| {
        let mut index = built(&THREE, 0);
        (index.places[2], index.lengths[2]) = (place, length);
        index
    };
    for (place, length) in [(8, 1), (0, 9), (9, 0), (0, 0), (4, 5)] {
        assert!(!unsound(&with(place, length), &THREE));
        assert_eq!(found(&with(place, length), &THREE, 6, 2), Found { place, length });
    }
    let max = usize::MAX;
    for (place, length) in
        [(9, 1), (10, 0), (0, 10), (5, 5), (max, 0), (0, max), (max, 1), (2, max), (max, max)]
    {
        assert!(unsound(&with(place, length), &THREE), "{place} {length}");
        let unlisted = Index { count: 2, ..with(place, length) };
        assert!(!unsound(&unlisted, &THREE));
    }
    // The advertisement became shorter.
    assert!(unsound(&built(&THREE[..7], 0), &THREE[..6]));
}

#[test]
fn unsound_comes_before_a_damaged_entry() {
    for (behind, number) in [(&[9][..], 34), (&[9, 1], 35), (&[9, 0], 38)] {
        let more = [&entries(64)[..], behind].concat();
        let mut index = built(&more[..192], 0);
        assert_eq!(left_alone(&index, &more), number);
        index.places[63] = more.len();
        assert_eq!(left_alone(&index, &more), 23);
    }
}

#[test]
fn the_next_place_is_never_judged() {
    for next in [9, 10, 1 << 32, usize::MAX] {
        let index = Index { next, ..built(&THREE, 0) };
        assert_eq!(left_alone(&index, &THREE), 0);
        assert_eq!(found(&index, &THREE, 9, 1), Found { place: 5, length: 2 });
    }
    let mut again = Index { next: 3, ..built(&THREE, 0) };
    assert_eq!(again.extend(&THREE), 0);
    assert_eq!((again.count, again.next), (5, 9));
    assert_eq!(found(&again, &THREE, 9, 2), Found { place: 5, length: 2 });
}

#[test]
fn channel_names_of_a_hub_in_the_field() {
    let hub = hub_advertisement();
    let index = built(&hub, 1);
    assert_eq!((hub.len(), index.next), (272, 272));
    let (mut place, mut names) = (1, Vec::new());
    while let EntryAnswer::Entry { tag, next, .. } = entry_at(&hub, place) {
        if tag == 9 {
            names.push(value_at(&hub, place));
        }
        place = next;
    }
    let due: [&[u8]; 6] = [
        b"control\0",
        b"device\0",
        b"control\0",
        b"inputNormal\0",
        b"inputWake\0",
        b"inputGyroRv\0",
    ];
    assert_eq!(names, due);
    for (name, occurrence) in names.iter().zip(1..) {
        assert_eq!(index.value(&hub, 9, occurrence), *name);
        assert_eq!(found(&index, &hub, 9, occurrence), walked(&hub, 1, 9, occurrence));
    }
    assert_eq!(found(&index, &hub, 9, names.len() + 1), Finding::None);
}

/// The answer to a walk from a place, of which so many entries may be met.
fn answer_of_walk(advertisement: &[u8], start: usize, room: usize) -> (u8, usize, usize) {
    let (mut place, mut met) = (start, 0);
    loop {
        match entry_at(advertisement, place) {
            EntryAnswer::NoMore => return (0, met, place),
            EntryAnswer::Refused(number) => return (number, 0, start),
            EntryAnswer::Entry { .. } if met == room => return (38, 0, start),
            EntryAnswer::Entry { next, .. } => (place, met) = (next, met + 1),
        }
    }
}

#[test]
fn generated_indexes_find_what_the_walk_reaches() {
    let mut rng = Rng::new(30);
    let mut seen = BTreeSet::new();
    for _ in 0..20_000 {
        let (advertisement, start) = gen::advertisement_to_index(&mut rng);
        let (number, index) = Index::build(&advertisement, start);
        let due = answer_of_walk(&advertisement, start, 64);
        assert_eq!((number, index.count, index.next), due);
        seen.insert(number);
        for _ in 0..8 {
            let (tag, occurrence) = gen::question(&mut rng, &index);
            let finding = found(&index, &advertisement, tag, occurrence);
            if number == 0 {
                assert_eq!(finding, walked(&advertisement, start, tag, occurrence));
            } else {
                assert_eq!(finding, Finding::None);
            }
        }
    }
    assert_eq!(seen, BTreeSet::from([0, 34, 35, 38]));
}

fn is_outside(index: &Index, advertisement: &[u8]) -> bool {
    let ends = index.places.iter().zip(&index.lengths).take(index.count);
    let length = advertisement.len() as u128;
    index.count > 64 || ends.into_iter().any(|(&at, &size)| at as u128 + size as u128 > length)
}

/// Entries listed before, and places behind those listed now, are as they were.
fn assert_kept(before: &Index, after: &Index) {
    for entry in (0..before.count).chain(after.count..64) {
        assert_eq!(after.tags[entry], before.tags[entry]);
        assert_eq!(after.places[entry], before.places[entry]);
        assert_eq!(after.lengths[entry], before.lengths[entry]);
    }
}

/// Entries listed now and not before are those that stand from the next place on.
fn assert_added(before: &Index, after: &Index, advertisement: &[u8]) {
    let mut place = before.next;
    for entry in before.count..after.count {
        let (value, length) = (place + 2, usize::from(advertisement[place + 1]));
        assert_eq!((after.tags[entry], after.places[entry]), (advertisement[place], value));
        assert_eq!(after.lengths[entry], length);
        place = value + length;
    }
}

#[test]
fn generated_indexes_are_extended_or_left() {
    let mut rng = Rng::new(31);
    let mut seen = BTreeSet::new();
    for _ in 0..50_000 {
        let (advertisement, start) = gen::advertisement_to_index(&mut rng);
        let before = gen::index(&mut rng, &advertisement, start);
        let (tag, occurrence) = gen::question(&mut rng, &before);
        let finding = found(&before, &advertisement, tag, occurrence);
        let mut index = before.clone();
        let number = index.extend(&advertisement);
        seen.insert((number, matches!(finding, Found { .. }), index.count > before.count));
        if is_outside(&before, &advertisement) {
            assert_eq!((number, finding, &index), (23, Refused(23), &before));
            continue;
        }
        let room = 64 - before.count;
        let (due, met, next) = answer_of_walk(&advertisement, before.next, room);
        assert_eq!((number, index.count, index.next), (due, before.count + met, next));
        assert_kept(&before, &index);
        assert_added(&before, &index, &advertisement);
    }
    for answered in [false, true] {
        for (number, grown) in [(0, false), (0, true), (34, false), (35, false), (38, false)] {
            assert!(seen.contains(&(number, answered, grown)), "{number}");
        }
    }
    assert!(seen.contains(&(23, false, false)));
}
