//! Demand 3 over a few hundred seeds, and just past its bound.

use second::play::*;
use second::receiver::{take, Receiver};

#[test]
fn holds_for_every_seed() {
    let faults: Vec<String> = (0..400).filter_map(|seed| play(seed).err()).collect();
    assert_eq!(faults, Vec::<String>::new());
}

#[test]
fn scripts_reach_the_interesting_cases() {
    let (mut full_rows, mut delivered, mut abandoned, mut repeats, mut unheard) = (0, 0, 0, 0, 0);
    for seed in 0..400 {
        let script = script(seed);
        let longest = longest_row_of_losses(&script);
        assert!(longest <= MOST_LOSSES_IN_A_ROW);
        full_rows += usize::from(longest == MOST_LOSSES_IN_A_ROW);
        let account = wire_account(&script);
        delivered += account.delivered.len();
        repeats += account.repeats.iter().map(|&count| count as usize).sum::<usize>();
        let given_up = |shipment: &&Shipment| shipment.ending == Ending::Abandoned;
        abandoned += script.shipments.iter().filter(given_up).count();
        unheard += script.shipments.iter().filter(|one| one.fates.is_empty()).count();
    }
    println!("rows of 254: {full_rows}, delivered: {delivered}, abandoned: {abandoned}");
    println!("surplus copies: {repeats}, never begun: {unheard}");
    assert!(full_rows > 3 && delivered > 1_000 && abandoned > 500 && repeats > 1_000);
}

fn lost_row(row: usize, heard_before: bool) -> Script {
    let fate = |lost| if lost { Fate::Lost } else { Fate::Arrives { surplus: 0 } };
    let before = usize::from(heard_before);
    let fates = (0..before + row + 1).map(|place| fate(place >= before && place < before + row));
    let single =
        |fate| Shipment { channel: 0, cargo: vec![1], fates: vec![fate], ending: Ending::Finished };
    Script { limit: 5, count: 1, largest_transfer: 5, shipments: fates.map(single).collect() }
}

#[test]
fn the_bound_is_exact() {
    let holds = |script: Script| check(&script, &mut OwnEnds::fresh(&script)).is_ok();
    assert!(holds(lost_row(254, true)));
    assert!(!holds(lost_row(255, true)));
    assert!(holds(lost_row(255, false)));
    let mut state = Receiver::fresh(5, 1);
    take(&mut state, &[5, 0, 0, 0, 1], &mut [0]);
    assert_eq!(take(&mut state, &[5, 0, 0, 0, 2], &mut [0]).number, 20);
}
