//! Damage stays between its flags (02, request 5).

use second::captures;
use second::damage::{Damage, Parts, Readings, Start};
use second::gen;
use second::listing::Listing;
use second::message::{read_byte, Hearer, MessageReader, Phase, ReadByte, ESCAPE, FLAG};
use second::numbers::UNSOUND;
use second::rng::Rng;
use second::told::{told, Told, What, What::*};
use second::wrong::hearer;
use std::ops::Range;

const DAMAGES: usize = 1_000_000;
/// Where fewer will do.
const FEW: usize = 100_000;

const LONGEST_BUFFER: usize = 40;

fn readings(read_byte: ReadByte, rng: &mut Rng, start: &Start, damage: &Damage) -> Readings {
    damage.readings(|stream| start.told(read_byte, rng, stream))
}

fn random_damage(rng: &mut Rng) -> (Start, Damage) {
    let room = rng.below(LONGEST_BUFFER + 1);
    (gen::start(rng, room), gen::damage(rng, room))
}

const KINDS: usize = 8;
const FACTS: usize = 12;

fn kind(what: &What) -> usize {
    match *what {
        Transfer(_) => 0,
        Query => 1,
        Notice { .. } => 2,
        Refused(number @ 30..=33) => usize::from(number) - 27,
        Refused(UNSOUND) => 7,
        Refused(number) => panic!("{number}"),
    }
}

fn count_kinds(counts: &mut [usize; KINDS], told: &[Told]) {
    for one in told {
        counts[kind(&one.what)] += 1;
    }
}

/// What is to be met often.
fn facts(start: &Start, damage: &Damage, readings: &Readings) -> [(&'static str, bool); FACTS] {
    let (was, is) = (damage.original(), damage.replacement());
    let sound = start.reader.is_sound(&start.buffer);
    let flags = |bytes: &[u8]| bytes.iter().filter(|&&byte| byte == FLAG).count();
    let whats = |told: &[Told]| told.iter().map(|one| one.what.clone()).collect::<Vec<_>>();
    let between = damage.parts_of_whole(readings).between;
    let between_damaged = damage.parts_of_damaged(readings).between;
    [
        ("between differs", whats(between) != whats(between_damaged)),
        ("a false transfer", damage.tells_false(readings)),
        ("fewer flags", flags(is) < flags(was)),
        ("more flags", flags(is) > flags(was)),
        ("no flag left of some", flags(is) == 0 && flags(was) > 0),
        ("empty replacement", is.is_empty()),
        ("empty original", was.is_empty()),
        ("ends in a lone 7D", is.ends_with(&[ESCAPE]) && !is.ends_with(&[ESCAPE, ESCAPE])),
        ("adjacent flags chosen", flags(was) == 0),
        ("fresh at the start", start.reader == MessageReader::fresh()),
        ("in the midst at the start", sound && start.reader.phase != Phase::Outside),
        ("unsound at the start", !sound),
    ]
}

#[test]
fn before_and_after_come_out_as_they_did() {
    let mut rng = Rng::new(60);
    let mut met = [("", 0); FACTS];
    let (mut before, mut after) = ([0; KINDS], [0; KINDS]);
    for _ in 0..DAMAGES {
        let (start, damage) = random_damage(&mut rng);
        let readings = readings(read_byte, &mut rng, &start, &damage);
        assert!(damage.keeps_before(&readings), "{start:02X?}: {damage:02X?}");
        assert!(damage.keeps_after(&readings), "{start:02X?}: {damage:02X?}");
        let parts = damage.parts_of_damaged(&readings);
        count_kinds(&mut before, parts.before);
        count_kinds(&mut after, parts.after);
        for (count, (name, holds)) in met.iter_mut().zip(facts(&start, &damage, &readings)) {
            *count = (name, count.1 + usize::from(holds));
        }
    }
    println!("{met:?}\ntransfers, queries, notices, 30 to 33, 23: {before:?}, after {after:?}");
    for (name, count) in met {
        assert!(count > DAMAGES / 25, "{name}: {count}");
    }
    assert!(before.iter().chain(&after).all(|&count| count > DAMAGES / 25));
}

/// How many of some damages change what is asked about, where one more byte is changed.
fn broken_by_one_more_byte(
    seed: u64,
    places: fn(&Damage) -> Range<usize>,
    keeps: fn(&Damage, &Readings) -> bool,
) -> usize {
    let mut rng = Rng::new(seed);
    let mut broken = 0;
    for _ in 0..FEW {
        let (start, mut damage) = random_damage(&mut rng);
        let places = places(&damage);
        if places.is_empty() {
            continue;
        }
        let place = rng.between(places.start, places.end - 1);
        damage.damaged[place] ^= rng.between(1, 255) as u8;
        let readings = readings(read_byte, &mut rng, &start, &damage);
        broken += usize::from(!keeps(&damage, &readings));
    }
    broken
}

#[test]
fn a_byte_before_the_first_flag_may_not_change() {
    let broken = broken_by_one_more_byte(61, |damage| 0..damage.first, Damage::keeps_before);
    println!("{broken} of {FEW}");
    assert!(broken > FEW / 3);
}

#[test]
fn a_byte_behind_the_second_flag_may_not_change() {
    let behind = |damage: &Damage| damage.second_damaged + 1..damage.damaged.len();
    let broken = broken_by_one_more_byte(62, behind, Damage::keeps_after);
    println!("{broken} of {FEW}");
    assert!(broken > FEW / 3);
}

#[test]
fn it_does_not_hold_of_the_reader_of_before() {
    let closes_only = hearer("closes-only").unwrap().read_byte;
    let mut rng = Rng::new(63);
    let mut broken = 0;
    for _ in 0..FEW {
        let (start, damage) = random_damage(&mut rng);
        let readings = readings(closes_only, &mut rng, &start, &damage);
        assert!(damage.keeps_before(&readings));
        broken += usize::from(!damage.keeps_after(&readings));
    }
    println!("{broken} of {FEW}");
    assert!(broken > FEW / 10);
}

#[test]
fn a_turned_flag_shifts_the_reader_of_before() {
    // Queries that share flags: without the second flag, the third opens nothing.
    let whole = [FLAG, 0, FLAG, 0, FLAG, 0, FLAG, 0, FLAG].to_vec();
    let damaged = [FLAG, 0, 0x7F, 0, FLAG, 0, FLAG, 0, FLAG].to_vec();
    let damage = Damage { whole, damaged, first: 0, second: 4, second_damaged: 4 };
    let places = |name: &str, stream: &[u8]| {
        let read_byte = hearer(name).unwrap().read_byte;
        let told = told(read_byte, &mut MessageReader::fresh(), &mut [0; 9], stream);
        told.iter().map(|one| one.place).collect::<Vec<_>>()
    };
    assert_eq!(places("right", &damage.whole), [2, 4, 6, 8]);
    assert_eq!(places("right", &damage.damaged), [4, 6, 8]);
    assert_eq!(places("closes-only", &damage.whole), [2, 6]);
    assert_eq!(places("closes-only", &damage.damaged), [4, 8]);
}

#[test]
fn a_transfer_that_nobody_sent() {
    let whole = [0x7E, 0x01, 0x06, 0x00, 0x02, 0x00, 0x7D, 0x5E, 0x01, 0x7E, 0x00, 0x7E].to_vec();
    let replacement = [0x01, 0x06, 0x00, 0x02, 0x00, 0x41, 0x01];
    let damaged = [&[FLAG][..], &replacement, &whole[9..]].concat();
    let damage = Damage { whole, damaged, first: 0, second: 9, second_damaged: 8 };
    let both = readings(read_byte, &mut Rng::new(64), &Start::fresh(LONGEST_BUFFER), &damage);
    let told = |place, payload: &[u8], query| {
        let what = Transfer(payload.to_vec());
        [Told { place, what }, Told { place: query, what: Query }]
    };
    assert_eq!(both.whole, told(9, &[0x06, 0x00, 0x02, 0x00, 0x7E, 0x01], 11));
    assert_eq!(both.damaged, told(8, &[0x06, 0x00, 0x02, 0x00, 0x41, 0x01], 10));
    assert!(damage.keeps_before(&both) && damage.keeps_after(&both));
    assert!(damage.tells_false(&both));
    let mut receiver = Listing::hearing_by(Hearer::RIGHT);
    let mut delivered = Vec::new();
    for &byte in &damage.damaged {
        let cargo = receiver.take_byte(byte).and_then(|closed| closed.cargo);
        delivered.extend(cargo.map(|(channel, bytes)| (channel, bytes.to_vec())));
    }
    assert_eq!(delivered, [(2, vec![0x41, 0x01])]);
}

#[test]
fn the_damaged_capture_is_as_it_was_but_between_two_flags() {
    let (whole, damaged) = (captures::single_flags(), captures::damaged());
    let turned = whole.iter().zip(&damaged).position(|(was, is)| was != is).unwrap();
    let first = damaged[..turned].iter().rposition(|&byte| byte == FLAG).unwrap();
    let second = turned + damaged[turned..].iter().position(|&byte| byte == FLAG).unwrap();
    let damage = Damage { whole, damaged, first, second, second_damaged: second };
    let both = readings(read_byte, &mut Rng::new(65), &Start::fresh(LONGEST_BUFFER), &damage);
    assert!(damage.keeps_before(&both) && damage.keeps_after(&both) && damage.tells_false(&both));
    let counts = |parts: Parts| [parts.before, parts.between, parts.after].map(<[Told]>::len);
    assert_eq!(counts(damage.parts_of_whole(&both)), [4, 2, 3]);
    assert_eq!(counts(damage.parts_of_damaged(&both)), [4, 1, 3]);
}
