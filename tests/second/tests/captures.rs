//! What docs/LESSON.md says of its captures; that each wrong receiver breaks demand 3 on one, that
//! the wrong reader loses the totals of another, and what one turned bit makes of that one.

use second::captures::*;
use second::listing::list;
use second::odometer::{total_in, Odometer};
use second::play::{check, drive, longest_row_of_losses, wire_account, Account, OwnEnds, Script};
use second::totals::{list_totals, CIRCUMFERENCE_MM, TOTALS_CHANNEL};
use second::trip::trip;
use second::wrong::hearer;

fn told_by(name: &str, script: &Script) -> Account {
    drive(script, &mut OwnEnds::hearing_by(hearer(name).unwrap().take, script)).unwrap()
}

fn keeps_demand_three(name: &str, script: &Script) -> bool {
    check(script, &mut OwnEnds::hearing_by(hearer(name).unwrap().take, script)).is_ok()
}

fn totals(account: &Account) -> Vec<u32> {
    account.delivered.iter().filter_map(|cargo| total_in(&cargo.1)).collect()
}

fn listed(name: &str, stream: &[u8]) -> String {
    let mut output = Vec::new();
    list_totals(hearer(name).unwrap(), stream, &mut output).unwrap();
    String::from_utf8(output).unwrap()
}

fn lines(name: &str, stream: &[u8]) -> Vec<String> {
    behind_the_heading(&listed(name, stream))
}

/// The lines there, tabs shown as blanks.
fn behind_the_heading(text: &str) -> Vec<String> {
    text.lines().skip(1).map(|line| line.replace('\t', " ")).collect()
}

#[test]
fn the_right_receiver_keeps_demand_three_within_the_bound() {
    for script in [splice(), two_channels(), one_repeat()] {
        assert!(longest_row_of_losses(&script) < 255);
        assert!(keeps_demand_three("right", &script));
    }
    for script in [losses_of_255(), past_the_bound()] {
        assert_eq!(longest_row_of_losses(&script), 255);
        assert!(!keeps_demand_three("right", &script));
    }
}

#[test]
fn each_wrong_receiver_breaks_demand_three_on_its_own_capture() {
    let scripts =
        [("channel-alone", splice()), ("one-number", two_channels()), ("gap-of-255", one_repeat())];
    for (name, script) in scripts {
        assert!(!keeps_demand_three(name, &script), "{name}");
    }
}

#[test]
fn each_wrong_hearer_is_seen_on_its_own_capture_alone() {
    let captures = [
        ("channel-alone", stream(&splice())),
        ("one-number", stream(&two_channels())),
        ("gap-of-255", stream(&one_repeat())),
        ("closes-only", single_flags()),
    ];
    for (name, _) in &captures {
        for (own, capture) in &captures {
            let differs = listed(name, capture) != listed("right", capture);
            assert_eq!(differs, name == own, "{name} on the capture of {own}");
        }
    }
}

#[test]
fn closes_only_is_right_where_two_flags_part_the_messages() {
    for (file, capture) in all() {
        let same = listed("closes-only", &capture) == listed("right", &capture);
        assert_eq!(same, !["single-flags.bin", "damaged.bin"].contains(&file), "{file}");
    }
}

#[test]
fn the_second_hub_sends_one_flag_between_messages() {
    let capture = single_flags();
    let pieces: Vec<&[u8]> = capture.split(|&byte| byte == 0x7E).collect();
    let lengths: Vec<usize> = pieces.iter().map(|piece| piece.len()).collect();
    // Noise; of a total 1 + 4 + 3 bytes and 1 + 4 + 2; the idle line; the query; the end.
    assert_eq!(lengths, [2, 8, 7, 8, 7, 0, 8, 7, 1, 8, 7, 0]);
    assert_eq!(pieces[8], [0]);
}

#[test]
fn the_second_hub_heard_right() {
    let due = [
        "part 3 3 0 0 0 - -",
        "cargo 3 5 0 0 0 3137700 20081.2",
        "part 3 3 0 0 0 - -",
        "cargo 3 5 0 0 0 3138900 20088.9",
        "part 3 3 0 0 0 - -",
        "cargo 3 5 0 0 0 3140100 20096.6",
        "query - 0 0 0 0 - -",
        "part 3 3 0 0 0 - -",
        "cargo 3 5 0 0 0 3141300 20104.3",
    ];
    assert_eq!(lines("right", &single_flags()), due);
    assert!(keeps_demand_three("right", &second_hub()));
}

#[test]
fn the_second_hub_heard_by_the_reader_of_before() {
    // Messages 0, 2, 4, the query and message 7: first halves that drop each other, and then a
    // second half with two numbers missing.
    let due = [
        "part 3 3 0 0 0 - -",
        "part 3 3 0 1 1 - -",
        "part 3 3 0 1 1 - -",
        "query - 0 0 0 0 - -",
        "refused 3 0 21 2 1 - -",
    ];
    assert_eq!(lines("closes-only", &single_flags()), due);
}

#[test]
fn one_turned_bit_makes_a_total_that_nobody_sent() {
    let (whole, capture) = (single_flags(), damaged());
    let turned: Vec<usize> = (0..whole.len()).filter(|&at| whole[at] != capture[at]).collect();
    let [place] = turned[..] else { panic!("{turned:?}") };
    assert_eq!(whole[place - 8..=place], [0x01, 0x09, 0, 3, 4, 0x01, 0x04, 0xEA, 0x7E]);
    assert_eq!((whole.len(), capture[place]), (capture.len(), 0x7F));
    // Both halves are one transfer of number 4: L 9 takes five cargo bytes, 01 04 EA 7F 01, and
    // the rest is padding. Number 5 never comes, so that 6 has a gap of 1.
    let due = [
        "part 3 3 0 0 0 - -",
        "cargo 3 5 0 0 0 3137700 20081.2",
        "part 3 3 0 0 0 - -",
        "cargo 3 5 0 0 0 3138900 20088.9",
        "cargo 3 5 0 0 0 25160196 161025.2",
        "query - 0 0 0 0 - -",
        "part 3 3 0 1 0 - -",
        "cargo 3 5 0 0 0 3141300 20104.3",
    ];
    assert_eq!(lines("right", &capture), due);
    let mut listing = Vec::new();
    list(&capture[..], &mut listing).unwrap();
    let six_fields = due.map(|line| line.split(' ').take(6).collect::<Vec<_>>().join(" "));
    assert_eq!(behind_the_heading(&String::from_utf8(listing).unwrap()), six_fields);
    let sent = |total| second_hub().shipments.iter().any(|one| total_in(&one.cargo) == Some(total));
    assert!(sent(3_140_100) && !sent(0x017F_EA04) && 0x017F_EA04 == 25_160_196);
}

#[test]
fn the_odometer_believes_it_and_refuses_the_next() {
    let mut output = Vec::new();
    let odometer = Odometer::fresh(TOTALS_CHANNEL, CIRCUMFERENCE_MM);
    trip(hearer("right").unwrap(), odometer, &damaged()[..], &mut output).unwrap();
    // 25,160,196 - 3,137,700 turns; the true total that follows is 22,018,896 less.
    let due = [
        "base 3137700 0 0",
        "advanced 3138900 1200 7680000",
        "advanced 25160196 22022496 140943974400",
        "refused-41 3141300 22022496 140943974400",
    ];
    assert_eq!(behind_the_heading(&String::from_utf8(output).unwrap()), due);
}

#[test]
fn the_splice_is_412_kilometres_off() {
    let true_ones = [3_142_500, 3_143_700, IN_THE_YARD, IN_THE_YARD];
    assert_eq!(totals(&told_by("right", &splice())), true_ones);
    let told = totals(&told_by("channel-alone", &splice()));
    let spliced = (IN_THE_YARD & 0xFFFF_0000) | (ON_THE_ROAD & 0xFFFF);
    assert_eq!(told, [3_142_500, 3_143_700, spliced, IN_THE_YARD, IN_THE_YARD]);
    assert_eq!(u64::from(spliced - IN_THE_YARD) * CIRCUMFERENCE_MM, 412_000_000);
    let sent = |total| splice().shipments.iter().any(|one| total_in(&one.cargo) == Some(total));
    assert!(sent(IN_THE_YARD) && !sent(spliced));
}

#[test]
fn one_number_for_the_link_invents_510_losses_and_misses_a_total() {
    let script = two_channels();
    assert_eq!(longest_row_of_losses(&script), 0);
    assert_eq!(wire_account(&script).missing, vec![0; 32]);
    let told = told_by("one-number", &script);
    assert_eq!(told.missing.iter().sum::<u32>(), 510);
    assert_eq!(totals(&told), totals(&wire_account(&script))[1..]);
}

#[test]
fn a_repeat_and_255_losses_are_the_same_bytes() {
    assert_eq!(stream(&one_repeat()), stream(&losses_of_255()));
    let counts = |account: Account| {
        let due = (account.missing[TOTALS_CHANNEL], account.repeats[TOTALS_CHANNEL]);
        (due, account.delivered)
    };
    let (repeat, delivered) = counts(wire_account(&one_repeat()));
    let (losses, also_delivered) = counts(wire_account(&losses_of_255()));
    assert_eq!((repeat, losses), ((0, 1), (255, 0)));
    assert_eq!(delivered, also_delivered);
    for script in [one_repeat(), losses_of_255()] {
        assert_eq!(counts(told_by("right", &script)).0, repeat);
        assert_eq!(counts(told_by("gap-of-255", &script)).0, losses);
    }
}

#[test]
fn past_the_bound_the_right_receiver_splices_too() {
    let spliced = totals(&told_by("channel-alone", &splice()))[2];
    assert!(totals(&told_by("right", &past_the_bound())).contains(&spliced));
    assert!(keeps_demand_three("gap-of-255", &past_the_bound()));
}
