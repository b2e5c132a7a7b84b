//! Deliberately wrong receivers for the class (01, "What students hand in"), and a wrong reader.
//! Each is the right one with one rule changed. Nothing is held to them.

use crate::message::{read_byte, Event, Hearer, MessageReader};
use crate::numbers::UNSOUND;
use crate::receiver::{take_by, Channel, Incoming, Rules, Take};

/// Joining on the continuation bit and channel alone. On a stream that overfills the cargo buffer
/// it stops, since Rust looks; the same mistake in C writes on.
struct ChannelAlone;

impl Rules for ChannelAlone {
    fn joins(cargo: &Incoming, channel: usize, _gap: u8, _due: usize) -> bool {
        cargo.channel == channel
    }
}

/// One number for the link.
struct OneNumber;

impl Rules for OneNumber {
    fn row(_channel: usize) -> usize {
        0
    }
}

/// Counting 255 losses as a gap on a heard channel, which takes every repeat as new.
struct GapOf255;

impl Rules for GapOf255 {
    fn is_repeat(_row: &Channel, _number: u8) -> bool {
        false
    }
}

/// A flag that closes a message opens none, as 01 has it without request 3 of 02.
fn read_byte_closes_only(state: &mut MessageReader, buffer: &mut [u8], byte: u8) -> Event {
    let event = read_byte(state, buffer, byte);
    if ![Event::Nothing, Event::Refused(UNSOUND)].contains(&event) {
        *state = MessageReader::fresh();
    }
    event
}

const fn taking_by(take: Take) -> Hearer {
    Hearer { take, ..Hearer::RIGHT }
}

pub const HEARERS: [(&str, Hearer); 5] = [
    ("right", Hearer::RIGHT),
    ("channel-alone", taking_by(take_by::<ChannelAlone>)),
    ("one-number", taking_by(take_by::<OneNumber>)),
    ("gap-of-255", taking_by(take_by::<GapOf255>)),
    ("closes-only", Hearer { read_byte: read_byte_closes_only, ..Hearer::RIGHT }),
];

/// The hearer with this name.
pub fn hearer(name: &str) -> Option<Hearer> {
    HEARERS.iter().find(|one| one.0 == name).map(|one| one.1)
}
