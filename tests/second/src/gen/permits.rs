//! For the permit: calls at and beside the lines between what it allows, what is too long for it
//! and what comes too late.

use super::{lent_length, send_call, SendCall};
use crate::header::HEADER_BYTES;
use crate::message::{write_message, SHTP_ID};
use crate::permit::Permit;
use crate::rng::Rng;
use crate::sender::{self, Sender};

/// One more than the largest number of 32 bits.
const ROUND: u64 = 1 << 32;

/// One call of a permitted send or message.
#[derive(Clone, Debug)]
pub struct PermittedCall {
    pub permit: Permit,
    pub call: SendCall,
    pub clock: u64,
    pub timeout: u32,
}

/// The room of a Notification and the clock when it comes.
pub fn notification(rng: &mut Rng) -> (u16, u64) {
    (any_room(rng), any_time(rng))
}

/// A permitted send likely to meet this state.
pub fn permitted_send(rng: &mut Rng, state: &Sender) -> PermittedCall {
    let mut call = send_call(rng, state);
    if rng.percent(60) {
        call.out_length = call.out_length.max(next_transfer(state, &call).len());
    }
    with_permit(rng, state, call)
}

/// A permitted message likely to meet this state; its output has most often just the room it takes,
/// else one byte less, room for the transfer alone, or room for any transfer of that size.
pub fn permitted_message(rng: &mut Rng, state: &Sender) -> PermittedCall {
    let mut call = send_call(rng, state);
    let transfer = next_transfer(state, &call);
    let mut message = vec![0; 3 + 2 * transfer.len()];
    let (_, size) = write_message(SHTP_ID, &transfer, &mut message);
    call.out_length = match rng.below(10) {
        0..=3 => size,
        4 => size - 1,
        5 => size + rng.below(3),
        6 => rng.between(transfer.len(), size),
        7 => message.len(),
        _ => lent_length(rng, size),
    };
    with_permit(rng, state, call)
}

/// The transfer that a call would write where nothing refused it, else none.
fn next_transfer(state: &Sender, call: &SendCall) -> Vec<u8> {
    let mut transfer = vec![0; call.cargo.len() + HEADER_BYTES];
    let mut shadow = state.clone();
    let (_, size) = sender::send(&mut shadow, call.channel, &call.cargo, &mut transfer);
    transfer.truncate(size);
    transfer
}

fn with_permit(rng: &mut Rng, state: &Sender, call: SendCall) -> PermittedCall {
    let timeout = timeout(rng);
    let came = time_of_coming(rng, u64::from(timeout));
    let clock = clock_after(rng, came, u64::from(timeout));
    let permit = if rng.percent(12) {
        Permit::None
    } else {
        Permit::Held { room: room_for(rng, state, &call), came }
    };
    PermittedCall { permit, call, clock, timeout }
}

fn timeout(rng: &mut Rng) -> u32 {
    let any = rng.next_u64() as u32;
    rng.pick(&[0, 1, 2, 100, 1_000, u32::MAX - 1, u32::MAX, any])
}

/// A time, often so near the end of 64 bits that the timeout reaches it or just passes it.
fn time_of_coming(rng: &mut Rng, timeout: u64) -> u64 {
    let any = any_time(rng);
    let end = u64::MAX - timeout;
    let past_end = end.saturating_add(1);
    rng.pick(&[any, any, any, timeout, end - 1, end, past_end, u64::MAX - 1, u64::MAX])
}

fn any_time(rng: &mut Rng) -> u64 {
    let (any, few) = (rng.next_u64(), rng.below(5_000) as u64);
    rng.pick(&[0, 1, few, few, ROUND - 1, ROUND, ROUND + few, any, any, u64::MAX - few, u64::MAX])
}

/// A clock at the line or beside it; else one that is right again once a difference has lost its
/// upper half, or has run over.
fn clock_after(rng: &mut Rng, came: u64, timeout: u64) -> u64 {
    let few = rng.below(3) as u64;
    let within = rng.below(timeout as usize + 1) as u64;
    match rng.below(16) {
        0..=3 => came.saturating_add(timeout),
        4 | 5 => came.saturating_add(timeout.saturating_sub(1)),
        6 | 7 => came.saturating_add(timeout + 1),
        8 => came,
        9 => came.saturating_sub(1),
        10 => came.saturating_add(ROUND + few),
        11 => came.saturating_sub(ROUND),
        12 => came.wrapping_add(within),
        13 => any_time(rng),
        _ => came.saturating_add(within),
    }
}

/// A room at the L of the next transfer or beside it; else of the transfer's own size.
fn room_for(rng: &mut Rng, state: &Sender, call: &SendCall) -> u16 {
    let sent = state.under_way.map_or(0, |cargo| cargo.sent);
    let length = call.cargo.len().saturating_sub(sent) + HEADER_BYTES;
    let size = length.min(state.largest_transfer);
    let room = match rng.below(10) {
        0..=3 => length,
        4 => length - 1,
        5 => length + 1,
        6 => size,
        7 => rng.below(length),
        _ => usize::from(any_room(rng)),
    };
    // At most 32,772: a cargo here has no more than 32,767 bytes.
    room as u16
}

fn any_room(rng: &mut Rng) -> u16 {
    let any = rng.next_u64() as u16;
    rng.pick(&[0, 1, 4, 5, 255, 256, 32_766, 32_767, 32_768, 65_534, 65_535, any, any])
}
