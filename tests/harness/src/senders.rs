//! Compared calls on a sender's row.

use crate::cases::{bytes, number, row, wrong_length, Case};
use crate::receivers::{fresh, setting};
use crate::request::Request;
use crate::rows::*;
use second::gen;
use second::numbers::UNSOUND;
use second::rng::Rng;
use second::sender::{self, Sender};

/// A sender and a row that means it; the place of the bytes written holds anything.
pub fn sender_and_row(rng: &mut Rng) -> (Sender, Vec<u64>) {
    let unsound = rng.percent(20);
    let state = gen::sender(rng, !unsound);
    let mut row = sender_row(&state, 0);
    if rng.percent(10) {
        disguise_sender(rng, &mut row);
    }
    row[SENDER_STATE] = rng.next_u64();
    (state, row)
}

/// A row that means this sender writes the next transfer of a cargo.
pub fn send_case(
    state: &mut Sender,
    before: &[u64],
    channel: usize,
    cargo: &[u8],
    mut out: Vec<u8>,
) -> Case {
    let request = Request::new().row("row", before).number("channel", channel);
    let request = request.bytes("cargo", cargo).bytes("out", &out);
    if before.len() != SENDER_ROW {
        return request.expects([number(UNSOUND), row("row", before), bytes("out", out)]);
    }
    let (told, written) = sender::send(state, channel, cargo, &mut out);
    let after = sender_row(state, written as u64);
    request.expects([number(told), row("row", &after), bytes("out", out)])
}

pub fn send(rng: &mut Rng) -> Case {
    let (mut state, mut before) = sender_and_row(rng);
    let call = gen::send_call(rng, &state);
    let out = rng.bytes(call.out_length);
    wrong_length(rng, &mut before);
    send_case(&mut state, &before, call.channel, &call.cargo, out)
}

/// A row that means this sender forgets its cargo; the bytes written stay.
pub fn abandon_case(state: &mut Sender, before: &[u64]) -> Case {
    let request = Request::new().row("row", before);
    if before.len() != SENDER_ROW {
        return request.expects([number(UNSOUND), row("row", before)]);
    }
    let told = sender::abandon(state);
    let after = sender_row(state, before[SENDER_STATE]);
    request.expects([number(told), row("row", &after)])
}

pub fn abandon(rng: &mut Rng) -> Case {
    let (mut state, mut before) = sender_and_row(rng);
    wrong_length(rng, &mut before);
    abandon_case(&mut state, &before)
}

pub fn fresh_sender(rng: &mut Rng) -> Case {
    let (limit, count, largest) = (setting(rng), setting(rng), setting(rng));
    let request = Request::new().number("limit", limit).number("count", count);
    let state = sender_state(&Sender::fresh(limit, count, largest));
    fresh(rng, request.number("largest", largest), SENDER_ROW, &state)
}
