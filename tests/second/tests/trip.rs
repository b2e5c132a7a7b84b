//! The trip program (02, request 9): its lines, its arguments, the captures and generated streams.

use second::captures::{
    losses_of_255, one_repeat, past_the_bound, single_flags, splice, stream, two_channels,
};
use second::gen;
use second::message::write_message;
use second::odometer::{total_cargo, total_in, Odometer};
use second::play::{wire_account, Ending, Fate, Script, Shipment};
use second::rng::Rng;
use second::trip::trip;
use second::wrong::hearer;
use std::collections::BTreeMap;
use std::process::{Command, Stdio};

/// The lines behind the heading, tabs shown as blanks.
fn lines(name: &str, odometer: Odometer, input: &[u8]) -> Vec<String> {
    let mut output = Vec::new();
    trip(hearer(name).unwrap(), odometer, input, &mut output).unwrap();
    let text = String::from_utf8(output).unwrap();
    assert!(text.ends_with('\n'));
    let mut lines = text.lines().map(|line| line.replace('\t', " "));
    assert_eq!(lines.next().unwrap(), "event total turns millimetres");
    lines.collect()
}

/// The class's odometer, above this hearer.
fn class_lines(name: &str, script: &Script) -> Vec<String> {
    lines(name, Odometer::fresh(3, 6_400), &stream(script))
}

// What the captures must show is worked out from their scripts: a total is heard if both its halves
// come through. Turns are totals less the first one heard, millimetres are turns times 6,400.

#[test]
fn the_splice_heard_right() {
    // The totals of 19:06 and 19:12 lack a half each, and the last two are equal:
    // 3,143,700 - 3,142,500 = 1,200 and 3,146,000 - 3,142,500 = 3,500.
    let due = [
        "base 3142500 0 0",
        "advanced 3143700 1200 7680000",
        "advanced 3146000 3500 22400000",
        "advanced 3146000 3500 22400000",
    ];
    assert_eq!(class_lines("right", &splice()), due);
}

#[test]
fn the_splice_joined_by_the_channel_alone() {
    // The halves make 0x0030_FC87 = 3,210,375, and 3,210,375 - 3,142,500 = 67,875. The true totals
    // behind it lie 64,375 lower, so their difference is 2^32 - 64,375, and they are refused.
    let due = [
        "base 3142500 0 0",
        "advanced 3143700 1200 7680000",
        "advanced 3210375 67875 434400000",
        "refused-41 3146000 67875 434400000",
        "refused-41 3146000 67875 434400000",
    ];
    assert_eq!(class_lines("channel-alone", &splice()), due);
}

#[test]
fn temperatures_are_passed_over() {
    // Nothing is lost; 1,200 turns from each total to the next.
    let due = [
        "base 3136500 0 0",
        "advanced 3137700 1200 7680000",
        "advanced 3138900 2400 15360000",
        "advanced 3140100 3600 23040000",
    ];
    assert_eq!(class_lines("right", &two_channels()), due);
}

#[test]
fn a_repeat_and_255_losses_in_the_yard() {
    // The total stays. In one story four cargoes come through, and one half of them twice; in the
    // other three, then a lone half, then one.
    let due = [
        "base 3146000 0 0",
        "advanced 3146000 0 0",
        "advanced 3146000 0 0",
        "advanced 3146000 0 0",
    ];
    assert_eq!(class_lines("right", &one_repeat()), due);
    assert_eq!(class_lines("right", &losses_of_255()), due);
}

#[test]
fn past_the_bound_a_splice_stays() {
    // Heard are 3,143,700, the splice 3,210,375, which is 66,675 turns on, and 3,146,000.
    let due = [
        "base 3143700 0 0",
        "advanced 3210375 66675 426720000",
        "refused-41 3146000 66675 426720000",
    ];
    assert_eq!(class_lines("right", &past_the_bound()), due);
}

#[test]
fn our_second_hub_with_single_flags() {
    // Nothing is lost; 1,200 turns from each total to the next.
    let due = [
        "base 3137700 0 0",
        "advanced 3138900 1200 7680000",
        "advanced 3140100 2400 15360000",
        "advanced 3141300 3600 23040000",
    ];
    let told = |name| lines(name, Odometer::fresh(3, 6_400), &single_flags());
    assert_eq!(told("right"), due);
    // Of each of the first three totals it reads the first half, and of the last one the second.
    assert!(told("closes-only").is_empty());
}

#[test]
fn empty_input_and_what_is_no_total() {
    assert!(lines("right", Odometer::fresh(0, 1), &[]).is_empty());
    let mut bytes = Vec::new();
    for transfer in [&[8, 0, 31, 0, 1, 6, 0, 0][..], &[9, 0, 31, 1, 2, 6, 0, 0, 0], &[0, 0, 0, 0]] {
        let mut out = [0; 30];
        let (_, written) = write_message(1, transfer, &mut out);
        bytes.extend(&out[..written]);
    }
    assert_eq!(lines("right", Odometer::fresh(31, 1), &bytes), ["refused-40 - 0 0"; 2]);
    assert!(lines("right", Odometer::fresh(30, 1), &bytes).is_empty());
}

#[test]
fn a_distance_that_is_refused_has_a_dash() {
    let odometer = Odometer { turns: u64::MAX, ..Odometer::fresh(3, 2) };
    let due = ["refused-42 7 18446744073709551615 -"];
    assert_eq!(lines("right", odometer, &gen::totals_stream(3, [7])), due);
}

#[test]
fn the_distance_reaches_64_bits() {
    let lines = lines("right", Odometer::fresh(3, 10_000), &gen::trip_past_64_bits(3));
    // 858,993 steps of 2,147,483,647 turns are 1,844,673,420,387,471; with 986,983,484 more they
    // are 1,844,674,407,370,955, the most that 10,000 mm allow.
    let due = [
        "advanced 2146624655 1844673420387471 18446734203874710000",
        "refused-42 4294108302 1844673420387471 18446734203874710000",
        "advanced 3133608139 1844674407370955 18446744073709550000",
        "refused-42 3133608140 1844674407370955 18446744073709550000",
        "advanced 3133608139 1844674407370955 18446744073709550000",
    ];
    assert_eq!(lines[lines.len() - due.len()..], due);
    assert_eq!(lines[..2], ["base 0 0 0", "advanced 2147483647 2147483647 21474836470000"]);
    assert_eq!(lines.len(), 1 + 858_993 + 4);
}

#[test]
fn generated_streams_reach_every_event_but_42() {
    let mut rng = Rng::new(30);
    let mut streams_with = BTreeMap::new();
    for _ in 0..400 {
        let channel = rng.below(32);
        let input = gen::trip_stream(&mut rng, channel, 40);
        let lines = lines("right", Odometer::fresh(channel, 10_000), &input);
        for event in ["base", "advanced", "refused-40", "refused-41"] {
            let seen = lines.iter().any(|line| line.starts_with(event));
            *streams_with.entry(event).or_insert(0) += usize::from(seen);
        }
    }
    println!("streams of 400 with each event: {streams_with:?}");
    assert!(streams_with.values().all(|&count| count > 200));
}

/// Totals of a wheel on channel 3, some lost and some repeated.
fn wheel_script(rng: &mut Rng) -> Script {
    let mut wheel = rng.next_u64() as u32;
    let mut shipments = Vec::new();
    for _ in 0..rng.between(2, 60) {
        wheel = wheel.wrapping_add(rng.below(30_000_000) as u32);
        let fates = [0; 2].map(|_| match rng.below(10) {
            0..=2 => Fate::Lost,
            3 => Fate::Arrives { surplus: 1 },
            _ => Fate::Arrives { surplus: 0 },
        });
        let (cargo, fates) = (total_cargo(wheel), fates.to_vec());
        shipments.push(Shipment { channel: 3, cargo, fates, ending: Ending::Finished });
    }
    Script { limit: 32_766, count: 32, largest_transfer: 7, shipments }
}

#[test]
fn over_a_wire_that_loses_the_trip_is_exact() {
    let mut rng = Rng::new(31);
    for _ in 0..200 {
        let script = wheel_script(&mut rng);
        let heard = wire_account(&script).delivered;
        let totals: Vec<u32> = heard.iter().filter_map(|cargo| total_in(&cargo.1)).collect();
        let lines = class_lines("right", &script);
        assert_eq!(lines.len(), totals.len());
        // At most 60 steps below 30,000,000 are less than 2^31.
        if let (Some(first), Some(last)) = (totals.first(), totals.last()) {
            let turns = u64::from(last.wrapping_sub(*first));
            let shown = format!(" {last} {turns} {}", turns * 6_400);
            assert!(lines.last().unwrap().ends_with(&shown), "{shown}");
        }
    }
}

/// Runs the program itself on an empty stream: exit status, standard output and standard error.
fn run(arguments: &[&str]) -> (Option<i32>, String, String) {
    let mut command = Command::new(env!("CARGO_BIN_EXE_second"));
    let done = command.arg("trip").args(arguments).stdin(Stdio::null()).output().unwrap();
    let text = |bytes| String::from_utf8(bytes).unwrap();
    (done.status.code(), text(done.stdout), text(done.stderr))
}

#[test]
fn right_arguments() {
    let heading = "event\ttotal\tturns\tmillimetres\n".to_string();
    let many_zeros = "0".repeat(50) + "31";
    for arguments in [
        &["0", "1"][..],
        &["31", "10000"],
        &[&many_zeros, "0010000"],
        &["3", "6400", "right"],
        &["3", "6400", "channel-alone"],
        &["3", "6400", "closes-only"],
    ] {
        assert_eq!(run(arguments), (Some(0), heading.clone(), String::new()), "{arguments:?}");
    }
}

#[test]
fn wrong_arguments() {
    let told = |arguments: &[&str]| {
        let (status, output, complaint) = run(arguments);
        assert_eq!((status, output), (Some(2), String::new()), "{arguments:?}");
        complaint
    };
    for arguments in [&[][..], &["3"], &["32", "0", "no-receiver"], &["3", "1", "right", "right"]] {
        let due = "trip: use it as trip CHANNEL CIRCUMFERENCE < STREAM\n";
        assert_eq!(told(arguments), due, "{arguments:?}");
    }
    let no_numbers =
        ["", "-1", "+3", " 3", "3 ", "3.0", "0x3", "three", "٣", "18446744073709551619"];
    for channel in no_numbers.iter().chain(&["32", "4294967299"]) {
        let due = "trip: the channel is a number from 0 to 31\n";
        assert_eq!(told(&[channel, "0"]), due, "{channel}");
    }
    for circumference in no_numbers.iter().chain(&["0", "000", "10001", "4294967297"]) {
        let due = "trip: the circumference is a number of millimetres from 1 to 10000\n";
        assert_eq!(told(&["3", circumference]), due, "{circumference}");
    }
}
