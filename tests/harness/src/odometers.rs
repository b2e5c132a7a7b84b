//! Compared calls on an odometer.

use crate::cases::{number, row, Case};
use crate::receivers::answer_row;
use crate::request::Request;
use second::gen;
use second::numbers::{DONE, NOT_A_TOTAL};
use second::odometer::{self, Odometer, Outcome};
use second::rng::Rng;

fn odometer_numbers(state: &Odometer) -> [u64; 5] {
    let Odometer { channel, circumference, based, last, turns } = *state;
    [channel as u64, circumference, u64::from(based), u64::from(last), turns]
}

/// An odometer and numbers that mean it, now and then other ones than it is stored as.
fn odometer_and_row(rng: &mut Rng) -> (Odometer, [u64; 5]) {
    let state = gen::odometer(rng);
    let mut row = odometer_numbers(&state);
    if rng.percent(20) {
        let [_, _, based, last, _] = &mut row;
        *based *= 1 + rng.below(1000) as u64;
        *last += (rng.below(1000) as u64) << 32;
    }
    (state, row)
}

pub fn fresh(rng: &mut Rng) -> Case {
    let Odometer { channel, circumference, .. } = gen::odometer(rng);
    let request = Request::new().number("channel", channel);
    let request = request.number("circumference", circumference as usize);
    let state = Odometer::fresh(channel, circumference);
    request.expects([row("odometer", &odometer_numbers(&state))])
}

fn heard(request: Request, state: &Odometer, outcome: Outcome) -> Case {
    let (told, outcome) = match outcome {
        Outcome::Passed => (DONE, [0, 0]),
        Outcome::Base => (DONE, [1, 0]),
        Outcome::Advanced(turns) => (DONE, [2, u64::from(turns)]),
        Outcome::Refused(number) => (number, [3, 0]),
    };
    let odometer = row("odometer", &odometer_numbers(state));
    request.expects([number(told), odometer, row("told", &outcome)])
}

pub fn hear(rng: &mut Rng) -> Case {
    let (mut state, before) = odometer_and_row(rng);
    let cargo = gen::totals_cargo(rng, &state);
    let other = gen::odometer(rng).channel;
    let channel = if rng.percent(85) { state.channel } else { other };
    let request = Request::new().numbers("odometer", &before).number("channel", channel);
    let request = request.bytes("cargo", &cargo);
    let outcome = state.hear(channel, &cargo);
    heard(request, &state, outcome)
}

pub fn hear_answer(rng: &mut Rng) -> Case {
    let (mut state, before) = odometer_and_row(rng);
    let (answer, buffer) = gen::answer_for(rng, &state);
    let request = Request::new().numbers("odometer", &before);
    let request = request.numbers("answer", &answer_row(rng, &answer)).bytes("cargo", &buffer);
    let outcome = state.hear_answer(&answer, &buffer);
    heard(request, &state, outcome)
}

pub fn distance(rng: &mut Rng) -> Case {
    let (state, before) = odometer_and_row(rng);
    let (told, millimetres) = match state.distance() {
        Ok(millimetres) => (DONE, millimetres),
        Err(number) => (number, 0),
    };
    let request = Request::new().numbers("odometer", &before);
    request.expects([number(told), row("millimetres", &[millimetres])])
}

pub fn total_in(rng: &mut Rng) -> Case {
    let state = gen::odometer(rng);
    let cargo = gen::totals_cargo(rng, &state);
    let (told, total) = match odometer::total_in(&cargo) {
        Some(total) => (DONE, total),
        None => (NOT_A_TOTAL, 0),
    };
    let request = Request::new().bytes("cargo", &cargo);
    request.expects([number(told), row("total", &[u64::from(total)])])
}
