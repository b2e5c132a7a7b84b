//! Writing only with permission (02, request 14; 004, 4.3 and 4.5).

use crate::header::{read_header, Reading, LARGEST_LENGTH};
use crate::message::{write_message, SHTP_ID};
use crate::numbers::*;
use crate::sender::{self, Sender};

#[derive(Clone, Copy, Debug, PartialEq, Eq)]
pub enum Permit {
    None,
    /// The room that a Notification announced, and the clock in milliseconds when it came.
    Held {
        room: u16,
        came: u64,
    },
}

impl Permit {
    /// Why a transfer whose header has this L may not be written now, in the order 43, 45, 44.
    pub fn refusal(&self, length: usize, clock: u64, timeout: u32) -> Option<u8> {
        let Permit::Held { room, came } = *self else {
            return Some(NO_PERMIT);
        };
        let passed = clock.checked_sub(came);
        if passed.is_none_or(|passed| passed > u64::from(timeout)) {
            return Some(PERMIT_ENDED);
        }
        (length > usize::from(room)).then_some(LENGTH_ABOVE_PERMIT)
    }
}

/// A Notification replaces whatever permit there is.
pub fn notified(permit: &mut Permit, room: u16, clock: u64) {
    *permit = Permit::Held { room, came: clock };
}

/// Writes the next transfer of a cargo, if it is permitted: the answer number and the bytes
/// written. The clock and the timeout are in milliseconds.
pub fn send(
    sender: &mut Sender,
    permit: &mut Permit,
    channel: usize,
    cargo: &[u8],
    clock: u64,
    timeout: u32,
    out: &mut [u8],
) -> (u8, usize) {
    let next = next_write(sender, channel, cargo, <[u8]>::to_vec, out.len());
    carry_out(permitted(next, permit, clock, timeout), sender, permit, out)
}

/// The same with the whole UART message that carries the transfer.
pub fn send_message(
    sender: &mut Sender,
    permit: &mut Permit,
    channel: usize,
    cargo: &[u8],
    clock: u64,
    timeout: u32,
    out: &mut [u8],
) -> (u8, usize) {
    let next = next_write(sender, channel, cargo, message_of, out.len());
    carry_out(permitted(next, permit, clock, timeout), sender, permit, out)
}

/// What a call would write, and the sender behind it.
struct NextWrite {
    length_told: usize,
    bytes: Vec<u8>,
    sender: Sender,
}

/// The sender's own order, the bytes being the transfer in some form: only looks at the sender.
fn next_write(
    before: &Sender,
    channel: usize,
    cargo: &[u8],
    form: fn(&[u8]) -> Vec<u8>,
    room: usize,
) -> Result<NextWrite, u8> {
    let mut sender = before.clone();
    // Room for any transfer of a sound sender, so that 28 is asked of the form alone.
    let mut transfer = vec![0; sender.largest_transfer.min(LARGEST_LENGTH)];
    let (number, size) = sender::send(&mut sender, channel, cargo, &mut transfer);
    if number != DONE {
        return Err(number);
    }
    let bytes = form(&transfer[..size]);
    if bytes.len() > room {
        return Err(OUTPUT_SHORT);
    }
    Ok(NextWrite { length_told: length_told(&transfer), bytes, sender })
}

fn message_of(transfer: &[u8]) -> Vec<u8> {
    let mut message = vec![0; 3 + 2 * transfer.len()];
    let (_, size) = write_message(SHTP_ID, transfer, &mut message);
    message.truncate(size);
    message
}

fn length_told(transfer: &[u8]) -> usize {
    match read_header(transfer) {
        Reading::First(fields) | Reading::Continuation(fields) => fields.length,
        Reading::UnderFourBytes | Reading::Null => unreachable!("a sender writes no such header"),
    }
}

/// The permit is asked after the sender's own order.
fn permitted(
    next: Result<NextWrite, u8>,
    permit: &Permit,
    clock: u64,
    timeout: u32,
) -> Result<NextWrite, u8> {
    let next = next?;
    match permit.refusal(next.length_told, clock, timeout) {
        None => Ok(next),
        Some(number) => Err(number),
    }
}

/// The one place where anything changes, and nothing does at a refusal.
fn carry_out(
    judged: Result<NextWrite, u8>,
    sender: &mut Sender,
    permit: &mut Permit,
    out: &mut [u8],
) -> (u8, usize) {
    let next = match judged {
        Ok(next) => next,
        Err(number) => return (number, 0),
    };
    let size = next.bytes.len();
    out[..size].copy_from_slice(&next.bytes);
    *sender = next.sender;
    *permit = Permit::None;
    (DONE, size)
}
