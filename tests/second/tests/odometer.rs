//! The odometer (02, request 9): its sentences as cases worked out by hand, then as rules that are
//! tried on generated inputs.

use second::gen;
use second::odometer::Outcome::{Advanced, Base, Passed, Refused};
use second::odometer::*;
use second::receiver::{Answer, Kind};
use second::rng::Rng;
use std::collections::BTreeSet;

const LARGEST_STEP: u32 = 2_147_483_647;
const SMALLEST_REFUSED: u32 = 2_147_483_648;

/// One that has heard `last` on channel 3.
fn based(circumference: u64, last: u32, turns: u64) -> Odometer {
    Odometer { channel: 3, circumference, based: true, last, turns }
}

fn hear_total(odometer: &mut Odometer, total: u32) -> Outcome {
    odometer.hear(3, &total_cargo(total))
}

/// What a cargo answers where it must leave everything alone.
fn left_alone(before: Odometer, channel: usize, cargo: &[u8]) -> Outcome {
    let mut odometer = before;
    let outcome = odometer.hear(channel, cargo);
    assert_eq!(odometer, before);
    outcome
}

fn refused_total(before: Odometer, total: u32) -> Outcome {
    left_alone(before, 3, &total_cargo(total))
}

#[test]
fn the_first_sets_a_base_and_the_later_ones_advance() {
    let mut odometer = Odometer::fresh(3, 2_000);
    assert_eq!(odometer.distance(), Ok(0));
    // 0x0001_86A0 is 100,000.
    assert_eq!(odometer.hear(3, &[1, 0xA0, 0x86, 0x01, 0x00]), Base);
    assert_eq!((odometer, odometer.distance()), (based(2_000, 100_000, 0), Ok(0)));
    assert_eq!(hear_total(&mut odometer, 100_250), Advanced(250));
    assert_eq!((odometer, odometer.distance()), (based(2_000, 100_250, 250), Ok(500_000)));
    assert_eq!(hear_total(&mut odometer, 100_250), Advanced(0));
    assert_eq!((odometer, odometer.distance()), (based(2_000, 100_250, 250), Ok(500_000)));
}

#[test]
fn differences_are_modulo_4_294_967_296() {
    let mut odometer = based(10, 4_294_967_294, 7);
    assert_eq!(hear_total(&mut odometer, 3), Advanced(5));
    assert_eq!((odometer, odometer.distance()), (based(10, 3, 12), Ok(120)));
}

#[test]
fn differences_below_2_147_483_648_are_accepted() {
    for last in [0, 1_000, SMALLEST_REFUSED, 4_294_967_295] {
        let before = based(1, last, 7);
        let mut odometer = before;
        let total = last.wrapping_add(LARGEST_STEP);
        assert_eq!(hear_total(&mut odometer, total), Advanced(LARGEST_STEP));
        assert_eq!(odometer, based(1, total, 2_147_483_654));
        assert_eq!(refused_total(before, last.wrapping_add(SMALLEST_REFUSED)), Refused(41));
        assert_eq!(refused_total(before, last.wrapping_sub(1)), Refused(41));
    }
    // Without a base there is no difference.
    let mut odometer = Odometer::fresh(3, 1);
    assert_eq!(hear_total(&mut odometer, SMALLEST_REFUSED), Base);
}

#[test]
fn other_channels_are_passed_over() {
    for before in [Odometer::fresh(3, 1), based(10_000, 5, u64::MAX)] {
        for cargo in
            [&[][..], &[2, 6, 0, 0, 0], &total_cargo(6), &total_cargo(SMALLEST_REFUSED + 5)]
        {
            for channel in [0, 2, 4, 31, 3 + 256, usize::MAX] {
                assert_eq!(left_alone(before, channel, cargo), Passed);
            }
        }
    }
}

#[test]
fn only_five_bytes_of_kind_1_are_a_total() {
    for before in [Odometer::fresh(3, 1), based(1, 5, 0)] {
        for cargo in [&[][..], &[1], &[1, 6, 0, 0], &[1, 6, 0, 0, 0, 0]] {
            assert_eq!(left_alone(before, 3, cargo), Refused(40));
        }
        for kind in [0, 2, 0x81, 255] {
            assert_eq!(left_alone(before, 3, &[kind, 6, 0, 0, 0]), Refused(40));
        }
    }
}

#[test]
fn the_circumference_is_from_1_to_10_000() {
    for circumference in [1, 1_600, 10_000] {
        assert_eq!(hear_total(&mut Odometer::fresh(3, circumference), 6), Base);
        assert_eq!(based(circumference, 0, 2).distance(), Ok(2 * circumference));
    }
    for circumference in [0, 10_001, 65_537, 4_294_967_297, u64::MAX] {
        let odometer = Odometer::fresh(3, circumference);
        assert_eq!(refused_total(odometer, 6), Refused(39));
        assert_eq!(left_alone(odometer, 4, &total_cargo(6)), Refused(39));
        assert_eq!(odometer.distance(), Err(39));
    }
}

#[test]
fn order_of_refusals() {
    // Each step removes the fault that was answered.
    let full = |circumference| based(circumference, 5, u64::MAX);
    assert_eq!(left_alone(full(0), 3, &[2]), Refused(39));
    assert_eq!(left_alone(full(2), 3, &[2]), Refused(40));
    assert_eq!(refused_total(full(2), SMALLEST_REFUSED + 5), Refused(41));
    assert_eq!(refused_total(full(2), LARGEST_STEP), Refused(42));
    assert_eq!(hear_total(&mut based(2, 5, 0), LARGEST_STEP), Advanced(LARGEST_STEP - 5));
}

#[test]
fn the_distance_has_64_bits() {
    // 2^64 - 1 is 18,446,744,073,709,551,615, and 3 times 6,148,914,691,236,517,205.
    for (circumference, most, distance) in [
        (1, u64::MAX, 18_446_744_073_709_551_615),
        (3, 6_148_914_691_236_517_205, 18_446_744_073_709_551_615),
        (10_000, 1_844_674_407_370_955, 18_446_744_073_709_550_000),
    ] {
        for step in [1, 1_000, LARGEST_STEP - 1] {
            let before = based(circumference, 5, most - u64::from(step));
            let mut odometer = before;
            assert_eq!(hear_total(&mut odometer, 5 + step), Advanced(step));
            assert_eq!(odometer, based(circumference, 5 + step, most));
            assert_eq!(odometer.distance(), Ok(distance));
            assert_eq!(refused_total(before, 5 + step + 1), Refused(42));
        }
        assert_eq!(hear_total(&mut based(circumference, 5, most), 5), Advanced(0));
    }
}

#[test]
fn states_made_by_hand() {
    let unbased = |turns| Odometer { based: false, ..based(10_000, 9, turns) };
    let mut odometer = unbased(1_844_674_407_370_955);
    assert_eq!(hear_total(&mut odometer, 4_000_000_000), Base);
    assert_eq!(odometer, based(10_000, 4_000_000_000, 1_844_674_407_370_955));
    for turns in [1_844_674_407_370_956, u64::MAX] {
        assert_eq!(refused_total(unbased(turns), 9), Refused(42));
        assert_eq!(refused_total(based(10_000, 9, turns), 9), Refused(42));
        assert_eq!(unbased(turns).distance(), Err(42));
        assert_eq!(based(10_001, 9, turns).distance(), Err(39));
    }
    let mut beyond = Odometer::fresh(usize::MAX, 1);
    assert_eq!(beyond.hear(usize::MAX, &total_cargo(1)), Base);
}

fn answer(kind: Kind) -> Answer {
    Answer { kind, number: 0, gap: 0, dropped: false }
}

#[test]
fn a_receivers_answers() {
    let buffer = [1, 6, 0, 0, 0, 0xEE];
    let delivered = |channel, length| answer(Kind::Delivered { channel, length });
    let mut odometer = Odometer::fresh(3, 1);
    assert_eq!(odometer.hear_answer(&delivered(3, 5), &buffer), Base);
    assert_eq!(odometer, based(1, 6, 0));
    for (answer, outcome) in [
        (delivered(3, 6), Refused(40)),
        (delivered(3, 4), Refused(40)),
        // Longer than the buffer, so nothing is delivered.
        (delivered(3, 7), Refused(40)),
        (delivered(4, 5), Passed),
        (answer(Kind::Part), Passed),
        (answer(Kind::Null), Passed),
        (answer(Kind::Refused), Passed),
    ] {
        assert_eq!((odometer.hear_answer(&answer, &buffer), odometer), (outcome, based(1, 6, 0)));
        let mut wrong = based(0, 6, 0);
        assert_eq!(wrong.hear_answer(&answer, &buffer), Refused(39));
        assert_eq!(wrong, based(0, 6, 0));
    }
}

/// What the request says of a cargo, each fact by itself: the numbers of the refusals whose facts
/// hold, in order.
fn faults(before: &Odometer, cargo: &[u8]) -> Vec<u8> {
    let is_total = cargo.len() == 5 && cargo[0] == 1;
    let digits = cargo.iter().skip(1).rev();
    let total = digits.fold(0, |value, &byte| 256 * value + i128::from(byte));
    let apart = (total - i128::from(before.last)).rem_euclid(4_294_967_296);
    let difference = if before.based { apart } else { 0 };
    let turns = i128::from(before.turns) + difference;
    let facts = [
        (39, before.circumference < 1 || before.circumference > 10_000),
        (40, !is_total),
        (41, difference >= 2_147_483_648),
        (42, turns > 18_446_744_073_709_551_615 / i128::from(before.circumference.max(1))),
    ];
    facts.iter().filter(|fact| fact.1).map(|fact| fact.0).collect()
}

#[test]
fn generated_cargoes_are_refused_by_the_first_fact_that_holds() {
    let mut rng = Rng::new(20);
    let mut seen = BTreeSet::new();
    for _ in 0..50_000 {
        let before = gen::odometer(&mut rng);
        let cargo = gen::totals_cargo(&mut rng, &before);
        let mut odometer = before;
        let outcome = odometer.hear(before.channel, &cargo);
        let faults = faults(&before, &cargo);
        seen.insert((faults.clone(), before.based));
        if let Some(&number) = faults.first() {
            assert_eq!((outcome, odometer), (Refused(number), before), "{before:?} {cargo:?}");
            continue;
        }
        let step = odometer.turns - before.turns;
        let accepted = if before.based { Advanced(step as u32) } else { Base };
        let total = total_in(&cargo).unwrap();
        let after = Odometer { based: true, last: total, turns: odometer.turns, ..before };
        assert_eq!((outcome, odometer), (accepted, after));
        let difference = if before.based { total.wrapping_sub(before.last) } else { 0 };
        assert_eq!(step, u64::from(difference));
        assert!(odometer.distance().unwrap() >= before.distance().unwrap());
    }
    for faults in [&[][..], &[39], &[39, 40], &[40], &[40, 42], &[42]] {
        assert!(seen.contains(&(faults.to_vec(), true)), "{faults:?}");
        assert!(seen.contains(&(faults.to_vec(), false)), "{faults:?}");
    }
    for faults in [[41].to_vec(), [41, 42].to_vec(), [39, 41, 42].to_vec()] {
        assert!(seen.contains(&(faults, true)));
    }
}

#[test]
fn generated_answers_are_heard_as_their_cargoes() {
    let mut rng = Rng::new(21);
    let mut seen = BTreeSet::new();
    for _ in 0..20_000 {
        let before = gen::odometer(&mut rng);
        let (answer, buffer) = gen::answer_for(&mut rng, &before);
        let (mut odometer, mut by_hand) = (before, before);
        let outcome = odometer.hear_answer(&answer, &buffer);
        let due = match answer.kind {
            Kind::Delivered { channel, length } if length <= buffer.len() => {
                by_hand.hear(channel, &buffer[..length])
            }
            Kind::Delivered { channel, .. } => by_hand.hear(channel, &[]),
            _ if (1..=10_000).contains(&before.circumference) => Passed,
            _ => Refused(39),
        };
        assert_eq!((outcome, odometer), (due, by_hand));
        seen.insert(match outcome {
            Advanced(_) => "advanced".to_string(),
            other => format!("{other:?}"),
        });
    }
    let due = ["Base", "Passed", "Refused(39)", "Refused(40)", "Refused(41)", "Refused(42)"];
    assert_eq!(seen, due.iter().map(|one| one.to_string()).chain(["advanced".into()]).collect());
}

/// A wheel whose total is told now and then, and the one that was accepted last.
struct Wheel {
    turned: u64,
    accepted: u64,
}

impl Wheel {
    /// Turns on, never by 2^31 since the last accepted.
    fn turn(&mut self, rng: &mut Rng) {
        let room = u64::from(LARGEST_STEP) - (self.turned - self.accepted);
        let most = rng.pick(&[1, 1_000, room]).min(room);
        self.turned += rng.next_u64() % (most + 1);
    }
}

#[test]
fn exact_from_the_first_to_the_last_with_some_lost() {
    let mut rng = Rng::new(22);
    let (mut lost, mut rounds) = (0, 0);
    for _ in 0..500 {
        let circumference = rng.between(1, 10_000) as u64;
        let mut odometer = Odometer::fresh(3, circumference);
        let first = rng.next_u64() >> 24;
        let mut wheel = Wheel { turned: first, accepted: first };
        assert_eq!(hear_total(&mut odometer, first as u32), Base);
        for _ in 0..rng.between(1, 60) {
            wheel.turn(&mut rng);
            if rng.percent(40) {
                lost += 1;
                continue;
            }
            let step = (wheel.turned - wheel.accepted) as u32;
            assert_eq!(hear_total(&mut odometer, wheel.turned as u32), Advanced(step));
            assert_eq!(odometer.distance(), Ok((wheel.turned - first) * circumference));
            rounds += (wheel.turned >> 32) - (wheel.accepted >> 32);
            wheel.accepted = wheel.turned;
        }
    }
    println!("lost: {lost}, rounds of 2^32: {rounds}");
    assert!(lost > 1_000 && rounds > 100);
}
