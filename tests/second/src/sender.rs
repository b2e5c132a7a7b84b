//! The sender, which cuts cargoes into transfers (01, "The sender"; 004, 2.4).

use crate::header::{step, write_header, HEADER_BYTES};
use crate::numbers::*;
use crate::receiver::{settings_in_range, MOST_CHANNELS, SMALLEST_LIMIT};

#[derive(Clone, Copy, Debug, PartialEq, Eq)]
pub struct Outgoing {
    pub channel: usize,
    pub total: usize,
    pub sent: usize,
}

#[derive(Clone, Debug, PartialEq, Eq)]
pub struct Sender {
    pub limit: usize,
    pub count: usize,
    pub largest_transfer: usize,
    /// The number that each channel's next transfer will bear.
    pub numbers: [u8; MOST_CHANNELS],
    pub under_way: Option<Outgoing>,
}

impl Sender {
    pub fn fresh(limit: usize, count: usize, largest_transfer: usize) -> Sender {
        Sender { limit, count, largest_transfer, numbers: [0; MOST_CHANNELS], under_way: None }
    }

    pub fn is_sound(&self) -> bool {
        let settings = settings_in_range(self.limit, self.count)
            && (SMALLEST_LIMIT..=self.limit).contains(&self.largest_transfer);
        settings && self.under_way.is_none_or(|cargo| self.can_hold(&cargo))
    }

    fn can_hold(&self, cargo: &Outgoing) -> bool {
        cargo.channel < self.count
            && cargo.total <= self.limit - HEADER_BYTES
            && (1..cargo.total).contains(&cargo.sent)
    }
}

/// Writes the next transfer of a cargo: the answer number and the bytes written.
pub fn send(state: &mut Sender, channel: usize, cargo: &[u8], out: &mut [u8]) -> (u8, usize) {
    if let Some(number) = refusal(state, channel, cargo.len()) {
        return (number, 0);
    }
    let sent = state.under_way.map_or(0, |under_way| under_way.sent);
    let left = cargo.len() - sent;
    let size = state.largest_transfer.min(left + HEADER_BYTES);
    if out.len() < size {
        return (OUTPUT_SHORT, 0);
    }
    // In range by the checks above: left + 4 <= 32,766 and channel < 32.
    let length = (left + HEADER_BYTES) as u16;
    let header = write_header(sent > 0, length, channel as u8, state.numbers[channel]);
    let now_sent = sent + size - HEADER_BYTES;
    out[..HEADER_BYTES].copy_from_slice(&header);
    out[HEADER_BYTES..size].copy_from_slice(&cargo[sent..now_sent]);
    state.numbers[channel] = step(state.numbers[channel]);
    state.under_way = (now_sent < cargo.len()).then_some(Outgoing {
        channel,
        total: cargo.len(),
        sent: now_sent,
    });
    (DONE, size)
}

/// The order 23, 9, 26, 27, 29; the short output is asked last, by the caller.
fn refusal(state: &Sender, channel: usize, length: usize) -> Option<u8> {
    if !state.is_sound() {
        return Some(UNSOUND);
    }
    if channel >= state.count {
        return Some(CHANNEL_UNKNOWN);
    }
    if length == 0 {
        return Some(CARGO_EMPTY);
    }
    if length > state.limit - HEADER_BYTES {
        return Some(CARGO_ABOVE_LIMIT);
    }
    let other = |cargo: Outgoing| cargo.channel != channel || cargo.total != length;
    state.under_way.is_some_and(other).then_some(OTHER_UNDER_WAY)
}

/// Forgets the cargo under way; the numbers stay.
pub fn abandon(state: &mut Sender) -> u8 {
    if !state.is_sound() {
        return UNSOUND;
    }
    state.under_way = None;
    DONE
}

/// How many transfers a cargo takes: its bytes over T - 4, rounded up (T at least 5).
pub fn transfers_needed(length: usize, largest_transfer: usize) -> usize {
    length.div_ceil(largest_transfer - HEADER_BYTES)
}
