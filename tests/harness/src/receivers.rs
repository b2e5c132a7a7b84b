//! Compared calls on a receiver: its row, one channel of it, and what its answers say.

use crate::cases::{bytes, counts, number, part, random_numbers, row, wrong_length, Case};
use crate::request::Request;
use crate::rows::*;
use second::gen;
use second::header::LARGEST_LENGTH;
use second::numbers::{DONE, UNSOUND};
use second::receiver::{self, Answer, Channel, Kind, Receiver, MOST_CHANNELS};
use second::rng::Rng;

/// A receiver and a row that means it; the places of the last answer hold anything.
pub fn receiver_and_row(rng: &mut Rng) -> (Receiver, Vec<u64>) {
    let unsound = rng.percent(20);
    let state = gen::receiver(rng, !unsound);
    let mut row = receiver_state(&state);
    if rng.percent(10) {
        disguise_receiver(rng, &mut row);
    }
    row.extend(random_numbers(rng, RECEIVER_ROW - RECEIVER_STATE));
    (state, row)
}

/// A row that means this receiver takes a transfer.
pub fn take_case(
    state: &mut Receiver,
    before: &[u64],
    transfer: &[u8],
    mut cargo: Vec<u8>,
) -> Case {
    let request = Request::new().row("row", before).bytes("transfer", transfer);
    let request = request.bytes("cargo", &cargo);
    if before.len() != RECEIVER_ROW {
        return request.expects([number(UNSOUND), row("row", before), bytes("cargo", cargo)]);
    }
    let answer = receiver::take(state, transfer, &mut cargo);
    let after = receiver_row(state, &answer_numbers(&answer));
    request.expects([number(answer.number), row("row", &after), bytes("cargo", cargo)])
}

pub fn take(rng: &mut Rng) -> Case {
    let (mut state, mut before) = receiver_and_row(rng);
    let transfer = gen::transfer(rng, &state);
    let length = gen::cargo_buffer_length(rng, &state);
    let cargo = rng.bytes(length);
    wrong_length(rng, &mut before);
    take_case(&mut state, &before, &transfer, cargo)
}

/// A row that means this receiver has its counts copied to `places`.
pub fn copy_counts_case(state: &Receiver, before: &[u64], places: &mut [u32]) -> Case {
    let request = Request::new().row("row", before).counts("counts", places);
    let told = match before.len() {
        RECEIVER_ROW => receiver::copy_counts(state, places),
        _ => UNSOUND,
    };
    request.expects([number(told), counts("counts", places)])
}

pub fn copy_counts(rng: &mut Rng) -> Case {
    let (state, mut before) = receiver_and_row(rng);
    let length = gen::lent_length(rng, 2 * state.count.min(40));
    let mut places: Vec<u32> = (0..length).map(|_| rng.next_u64() as u32).collect();
    wrong_length(rng, &mut before);
    copy_counts_case(&state, &before, &mut places)
}

/// A row that means this receiver has its counts cleared; what its last answer told stays.
pub fn clear_counts_case(state: &mut Receiver, before: &[u64]) -> Case {
    let request = Request::new().row("row", before);
    if before.len() != RECEIVER_ROW {
        return request.expects([number(UNSOUND), row("row", before)]);
    }
    let told = receiver::clear_counts(state);
    let after = receiver_row(state, &before[RECEIVER_STATE..]);
    request.expects([number(told), row("row", &after)])
}

pub fn clear_counts(rng: &mut Rng) -> Case {
    let (mut state, mut before) = receiver_and_row(rng);
    wrong_length(rng, &mut before);
    clear_counts_case(&mut state, &before)
}

/// Settings at the edges of their ranges, and past them.
pub fn setting(rng: &mut Rng) -> usize {
    let wide = rng.pick(&gen::WIDE);
    let small = rng.below(70);
    rng.pick(&[0, 4, 5, 32, 33, LARGEST_LENGTH, LARGEST_LENGTH + 1, small, wide])
}

/// A row of anything, made a fresh record's; the places behind its state stay.
pub fn fresh(rng: &mut Rng, request: Request, places: usize, state: &[u64]) -> Case {
    let mut before = random_numbers(rng, places);
    wrong_length(rng, &mut before);
    let request = request.row("row", &before);
    if before.len() != places {
        return request.expects([number(UNSOUND), row("row", &before)]);
    }
    let after = [state, &before[state.len()..]].concat();
    request.expects([number(DONE), row("row", &after)])
}

pub fn fresh_receiver(rng: &mut Rng) -> Case {
    let (limit, count) = (setting(rng), setting(rng));
    let request = Request::new().number("limit", limit).number("count", count);
    let state = receiver_state(&Receiver::fresh(limit, count));
    fresh(rng, request, RECEIVER_ROW, &state)
}

/// The place of a transfer's channel among 32; the first where it names none.
fn slot_of(transfer: &[u8]) -> usize {
    transfer.get(2).map_or(0, |&channel| usize::from(channel) % MOST_CHANNELS)
}

pub fn slot(rng: &mut Rng) -> Case {
    let state = gen::receiver(rng, true);
    let transfer = gen::transfer(rng, &state);
    let request = Request::new().bytes("transfer", &transfer);
    request.expects([row("slot", &[slot_of(&transfer) as u64])])
}

fn channel_numbers(channel: &Channel) -> [u64; 4] {
    let Channel { expected, heard, missing, repeats } = *channel;
    [u64::from(expected), u64::from(heard), u64::from(missing), u64::from(repeats)]
}

/// The second program's receiver, of which this call has the one channel.
pub fn step_in(rng: &mut Rng) -> Case {
    let unsound = rng.percent(20);
    let mut state = gen::receiver(rng, !unsound);
    let transfer = gen::transfer(rng, &state);
    let length = gen::cargo_buffer_length(rng, &state);
    let mut cargo = rng.bytes(length);
    let place = slot_of(&transfer);
    let request = Request::new().number("limit", state.limit).number("count", state.count);
    let request = request.numbers("load", &load_numbers(state.under_way));
    let request = request.numbers("channel", &channel_numbers(&state.channels[place]));
    let request = request.bytes("transfer", &transfer).bytes("cargo", &cargo);
    let answer = receiver::take(&mut state, &transfer, &mut cargo);
    request.expects([
        number(answer.number),
        row("load", &load_numbers(state.under_way)),
        row("channel", &channel_numbers(&state.channels[place])),
        bytes("cargo", cargo),
        row("answer", &answer_numbers(&answer)),
    ])
}

/// An answer made by hand.
pub fn answer(rng: &mut Rng) -> Answer {
    let (channel, length) = (rng.below(40), rng.below(40));
    let wide = rng.pick(&gen::WIDE);
    let kind = match rng.below(4) {
        0 => Kind::Delivered { channel, length: rng.pick(&[length, length, length, wide]) },
        1 => Kind::Part,
        2 => Kind::Null,
        _ => Kind::Refused,
    };
    let number = match kind {
        Kind::Refused => rng.pick(&[2, 3, 4, 9, 20, 21, 22, 23, 24, 255]),
        _ => DONE,
    };
    if kind == Kind::Null {
        return Answer { kind, number, gap: 0, dropped: false };
    }
    Answer { kind, number, gap: rng.byte(), dropped: rng.percent(50) }
}

/// The numbers of an answer; now and then others that mean the same.
pub fn answer_row(rng: &mut Rng, answer: &Answer) -> [u64; 6] {
    let mut row = answer_numbers(answer);
    if rng.percent(30) {
        let [kind, number, gap, dropped, channel, length] = &mut row;
        *number += 256 * rng.below(1000) as u64;
        *gap += 256 * rng.below(1000) as u64;
        *dropped *= 1 + rng.below(1000) as u64;
        if answer.kind == Kind::Refused {
            *kind += rng.next_u64() >> 1;
        }
        if !matches!(answer.kind, Kind::Delivered { .. }) {
            (*channel, *length) = (rng.next_u64(), rng.next_u64());
        }
    }
    row
}

pub fn told(rng: &mut Rng) -> Case {
    let answer = answer(rng);
    let request = Request::new().numbers("answer", &answer_row(rng, &answer));
    let told = [u64::from(answer.gap), u64::from(answer.dropped)];
    request.expects([number(answer.number), row("gap and dropped", &told)])
}

pub fn delivered(rng: &mut Rng) -> Case {
    let answer = answer(rng);
    let near = match answer.kind {
        Kind::Delivered { length, .. } => length.min(60),
        _ => 20,
    };
    let length = rng.pick(&[near, near, near + 1, near.saturating_sub(1), 0]);
    let cargo = rng.bytes(length);
    let request = Request::new().numbers("answer", &answer_row(rng, &answer));
    let delivered = receiver::delivered_part(&answer, &cargo).len();
    request.bytes("cargo", &cargo).expects([part(0, delivered)])
}

pub fn is_sound(rng: &mut Rng) -> Case {
    let sound = rng.percent(50);
    let state = gen::receiver(rng, sound);
    let request = Request::new().number("limit", state.limit).number("count", state.count);
    let request = request.numbers("load", &load_numbers(state.under_way));
    request.expects([row("is sound", &[u64::from(state.is_sound())])])
}
