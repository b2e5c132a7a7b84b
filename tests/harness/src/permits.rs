//! Compared calls on a permit, alone and beside a sender's row.

use crate::cases::{bytes, number, random_numbers, row, wrong_length, Case};
use crate::request::Request;
use crate::rows::*;
use crate::senders::sender_and_row;
use second::gen::{self, PermittedCall};
use second::numbers::{DONE, UNSOUND};
use second::permit::{self, Permit};
use second::rng::Rng;
use second::sender::Sender;

/// A row that means this permit, now and then other numbers than it is stored as.
fn permit_row(rng: &mut Rng, permit: Permit) -> Vec<u64> {
    let mut row = permit_numbers(permit).to_vec();
    if rng.percent(20) {
        disguise_permit(rng, &mut row);
    }
    row
}

pub fn grant(rng: &mut Rng) -> Case {
    let (room, clock) = gen::notification(rng);
    let (older_room, older_clock) = gen::notification(rng);
    let older = Permit::Held { room: older_room, came: older_clock };
    let held_before = rng.pick(&[Permit::None, older]);
    let mut before = permit_row(rng, held_before);
    if rng.percent(20) {
        before = random_numbers(rng, PERMIT_ROW);
    }
    wrong_length(rng, &mut before);
    let request = Request::new().number("room", usize::from(room));
    let request = request.number("clock", clock as usize).row("permit", &before);
    if before.len() != PERMIT_ROW {
        return request.expects([number(UNSOUND), row("permit", &before)]);
    }
    let mut after = held_before;
    permit::notified(&mut after, room, clock);
    request.expects([number(DONE), row("permit", &permit_numbers(after))])
}

type Write = fn(&mut Sender, &mut Permit, usize, &[u8], u64, u32, &mut [u8]) -> (u8, usize);

pub fn send(rng: &mut Rng) -> Case {
    permitted(rng, gen::permitted_send, permit::send)
}

pub fn message(rng: &mut Rng) -> Case {
    permitted(rng, gen::permitted_message, permit::send_message)
}

fn permitted(rng: &mut Rng, make: fn(&mut Rng, &Sender) -> PermittedCall, write: Write) -> Case {
    let (mut state, mut lent_sender) = sender_and_row(rng);
    let PermittedCall { mut permit, call, clock, timeout } = make(rng, &state);
    let mut lent_permit = permit_row(rng, permit);
    let mut out = rng.bytes(call.out_length);
    wrong_length(rng, &mut lent_sender);
    wrong_length(rng, &mut lent_permit);
    let request = Request::new().row("row", &lent_sender).row("permit", &lent_permit);
    let request = request.number("channel", call.channel).bytes("cargo", &call.cargo);
    let request = request.number("clock", clock as usize).number("timeout", timeout as usize);
    let request = request.bytes("out", &out);
    let mut told = UNSOUND;
    if (lent_sender.len(), lent_permit.len()) == (SENDER_ROW, PERMIT_ROW) {
        let written;
        (told, written) =
            write(&mut state, &mut permit, call.channel, &call.cargo, clock, timeout, &mut out);
        lent_sender = sender_row(&state, written as u64);
        lent_permit = permit_numbers(permit).to_vec();
    }
    let (sender, permit) = (row("row", &lent_sender), row("permit", &lent_permit));
    request.expects([number(told), sender, permit, bytes("out", out)])
}
