//! The receiver of one direction (01, "The receiver").

use crate::header::{gap, read_header, step, Fields, Reading};
use crate::header::{HEADER_BYTES, LARGEST_LENGTH, RESERVED_LENGTH};
use crate::numbers::*;

pub const SMALLEST_LIMIT: usize = HEADER_BYTES + 1;
pub const MOST_CHANNELS: usize = 32;

/// What is kept of one channel. Once heard, its last number is the one before
/// `expected`; no second number is kept.
#[derive(Clone, Copy, Debug, Default, PartialEq, Eq)]
pub struct Channel {
    pub expected: u8,
    pub heard: bool,
    pub missing: u32,
    pub repeats: u32,
}

#[derive(Clone, Copy, Debug, PartialEq, Eq)]
pub struct Incoming {
    pub channel: usize,
    pub total: usize,
    pub held: usize,
}

#[derive(Clone, Debug, PartialEq, Eq)]
pub struct Receiver {
    pub limit: usize,
    pub count: usize,
    pub channels: [Channel; MOST_CHANNELS],
    pub under_way: Option<Incoming>,
}

#[derive(Clone, Copy, Debug, PartialEq, Eq)]
pub enum Kind {
    Delivered { channel: usize, length: usize },
    Part,
    Null,
    Refused,
}

#[derive(Clone, Copy, Debug, PartialEq, Eq)]
pub struct Answer {
    pub kind: Kind,
    pub number: u8,
    pub gap: u8,
    pub dropped: bool,
}

/// What takes a transfer: `take`, or one of the wrong receivers.
pub type Take = fn(&mut Receiver, &[u8], &mut [u8]) -> Answer;

/// The rules of 01 that a class gets wrong, as 01 has them; `wrong.rs` changes one at a time.
pub trait Rules {
    /// The place of the row that keeps this channel's number.
    fn row(channel: usize) -> usize {
        channel
    }

    fn is_repeat(row: &Channel, number: u8) -> bool {
        row.heard && step(number) == row.expected
    }

    fn joins(cargo: &Incoming, channel: usize, gap: u8, due: usize) -> bool {
        cargo.channel == channel && gap == 0 && cargo.total - cargo.held == due
    }
}

struct Right;

impl Rules for Right {}

/// What the checks before the gap step found.
enum Finding {
    Null,
    Refused(u8),
    Repeat { row: usize },
    New { fields: Fields, first: bool },
}

impl Receiver {
    /// A fresh record keeps whatever settings it is given.
    pub fn fresh(limit: usize, count: usize) -> Receiver {
        Receiver { limit, count, channels: [Channel::default(); MOST_CHANNELS], under_way: None }
    }

    pub fn is_sound(&self) -> bool {
        if !settings_in_range(self.limit, self.count) {
            return false;
        }
        let Some(cargo) = self.under_way else {
            return true;
        };
        cargo.channel < self.count
            && (1..=self.limit - HEADER_BYTES).contains(&cargo.total)
            && cargo.held < cargo.total
    }
}

pub fn settings_in_range(limit: usize, count: usize) -> bool {
    (SMALLEST_LIMIT..=LARGEST_LENGTH).contains(&limit) && (1..=MOST_CHANNELS).contains(&count)
}

/// Takes one transfer.
pub fn take(state: &mut Receiver, transfer: &[u8], buffer: &mut [u8]) -> Answer {
    take_by::<Right>(state, transfer, buffer)
}

/// Takes one transfer by the rules given.
pub fn take_by<R: Rules>(state: &mut Receiver, transfer: &[u8], buffer: &mut [u8]) -> Answer {
    match examine::<R>(state, transfer, buffer.len()) {
        Finding::Null => answer(Kind::Null, DONE, 0, false),
        Finding::Refused(number) => answer(Kind::Refused, number, 0, false),
        Finding::Repeat { row } => {
            let repeats = &mut state.channels[row].repeats;
            *repeats = repeats.wrapping_add(1);
            answer(Kind::Refused, REPEAT, 0, false)
        }
        Finding::New { fields, first } => accept::<R>(state, fields, first, transfer, buffer),
    }
}

/// The order 23, 24, 2, null, 22, 4, 3, 9, 20 of 01.
fn examine<R: Rules>(state: &Receiver, transfer: &[u8], room: usize) -> Finding {
    if !state.is_sound() {
        return Finding::Refused(UNSOUND);
    }
    if room < state.limit - HEADER_BYTES {
        return Finding::Refused(CARGO_BUFFER_SHORT);
    }
    let (fields, first) = match read_header(transfer) {
        Reading::UnderFourBytes => return Finding::Refused(SHORT_TRANSFER),
        Reading::Null => return Finding::Null,
        Reading::First(fields) => (fields, true),
        Reading::Continuation(fields) => (fields, false),
    };
    let row = R::row(fields.channel);
    if fields.length == RESERVED_LENGTH {
        Finding::Refused(LENGTH_RESERVED)
    } else if fields.length <= HEADER_BYTES {
        Finding::Refused(LENGTH_WITHOUT_CARGO)
    } else if fields.length > state.limit {
        Finding::Refused(LENGTH_ABOVE_LIMIT)
    } else if fields.channel >= state.count {
        Finding::Refused(CHANNEL_UNKNOWN)
    } else if R::is_repeat(&state.channels[row], fields.number) {
        Finding::Repeat { row }
    } else {
        Finding::New { fields, first }
    }
}

/// From the gap step on.
fn accept<R: Rules>(
    state: &mut Receiver,
    fields: Fields,
    first: bool,
    transfer: &[u8],
    buffer: &mut [u8],
) -> Answer {
    let gap = note_number(&mut state.channels[R::row(fields.channel)], fields.number);
    let due = fields.length - HEADER_BYTES;
    let before = state.under_way.take();
    let base = if first {
        Some(Incoming { channel: fields.channel, total: due, held: 0 })
    } else {
        before.filter(|cargo| R::joins(cargo, fields.channel, gap, due))
    };
    let Some(cargo) = base else {
        return answer(Kind::Refused, NOT_JOINED, gap, before.is_some());
    };
    let carried = carried_part(transfer, fields.length);
    let held = cargo.held + carried.len();
    buffer[cargo.held..held].copy_from_slice(carried);
    let kind = if held == cargo.total {
        Kind::Delivered { channel: cargo.channel, length: cargo.total }
    } else {
        state.under_way = Some(Incoming { held, ..cargo });
        Kind::Part
    };
    answer(kind, DONE, gap, first && before.is_some())
}

/// Moves a channel on to the number received and gives the gap.
fn note_number(channel: &mut Channel, number: u8) -> u8 {
    let gap = gap(number, channel.expected);
    channel.missing = channel.missing.wrapping_add(u32::from(gap));
    channel.expected = step(number);
    channel.heard = true;
    gap
}

/// The cargo bytes of a transfer; those from L on are padding.
fn carried_part(transfer: &[u8], length: usize) -> &[u8] {
    &transfer[HEADER_BYTES..transfer.len().min(length)]
}

fn answer(kind: Kind, number: u8, gap: u8, dropped: bool) -> Answer {
    Answer { kind, number, gap, dropped }
}

/// The delivered cargo as a part of the lent buffer; empty for another kind.
pub fn delivered_part<'a>(answer: &Answer, buffer: &'a [u8]) -> &'a [u8] {
    let Kind::Delivered { length, .. } = answer.kind else {
        return &[];
    };
    buffer.get(..length).unwrap_or(&[])
}

/// Copies every channel's missing count, then every channel's repeats.
pub fn copy_counts(state: &Receiver, row: &mut [u32]) -> u8 {
    if !state.is_sound() {
        return UNSOUND;
    }
    if row.len() < 2 * state.count {
        return OUTPUT_SHORT;
    }
    for (place, channel) in state.channels[..state.count].iter().enumerate() {
        row[place] = channel.missing;
        row[state.count + place] = channel.repeats;
    }
    DONE
}

pub fn clear_counts(state: &mut Receiver) -> u8 {
    if !state.is_sound() {
        return UNSOUND;
    }
    for channel in &mut state.channels {
        channel.missing = 0;
        channel.repeats = 0;
    }
    DONE
}
