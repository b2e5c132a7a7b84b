//! The odometer above the transport (02, request 9).

use crate::numbers::*;
use crate::receiver::{delivered_part, Answer, Kind};

pub const LARGEST_CIRCUMFERENCE: u64 = 10_000;
/// A difference of half the round or more is refused: it may be a step back.
pub const HALF_ROUND: u32 = 1 << 31;

const KIND: u8 = 1;

#[derive(Clone, Copy, Debug, PartialEq, Eq)]
pub struct Odometer {
    pub channel: usize,
    pub circumference: u64,
    pub based: bool,
    pub last: u32,
    pub turns: u64,
}

#[derive(Clone, Copy, Debug, PartialEq, Eq)]
pub enum Outcome {
    Passed,
    Base,
    /// By this many turns.
    Advanced(u32),
    Refused(u8),
}

impl Odometer {
    /// A fresh record keeps whatever settings it is given.
    pub fn fresh(channel: usize, circumference: u64) -> Odometer {
        Odometer { channel, circumference, based: false, last: 0, turns: 0 }
    }

    /// Hears a delivered cargo.
    pub fn hear(&mut self, channel: usize, cargo: &[u8]) -> Outcome {
        self.judge(channel, cargo).unwrap_or_else(Outcome::Refused)
    }

    /// The order 39, another channel, 40, 41, 42.
    fn judge(&mut self, channel: usize, cargo: &[u8]) -> Result<Outcome, u8> {
        self.ask_circumference()?;
        if channel != self.channel {
            return Ok(Outcome::Passed);
        }
        let total = total_in(cargo).ok_or(NOT_A_TOTAL)?;
        let step = if self.based { total.wrapping_sub(self.last) } else { 0 };
        if step >= HALF_ROUND {
            return Err(DIFFERENCE_TOO_LARGE);
        }
        let turns = self.turns.checked_add(u64::from(step)).ok_or(DISTANCE_ABOVE_64_BITS)?;
        let after = Odometer { based: true, last: total, turns, ..*self };
        after.distance()?;
        let outcome = if self.based { Outcome::Advanced(step) } else { Outcome::Base };
        *self = after;
        Ok(outcome)
    }

    /// Hears what a receiver answered, with the cargo buffer after it.
    pub fn hear_answer(&mut self, answer: &Answer, buffer: &[u8]) -> Outcome {
        match (self.ask_circumference(), answer.kind) {
            (Err(number), _) => Outcome::Refused(number),
            (_, Kind::Delivered { channel, .. }) => {
                self.hear(channel, delivered_part(answer, buffer))
            }
            (_, Kind::Part | Kind::Null | Kind::Refused) => Outcome::Passed,
        }
    }

    /// In millimetres, or the number of the refusal: 39, 42.
    pub fn distance(&self) -> Result<u64, u8> {
        self.ask_circumference()?;
        let millimetres = u128::from(self.turns) * u128::from(self.circumference);
        u64::try_from(millimetres).map_err(|_| DISTANCE_ABOVE_64_BITS)
    }

    fn ask_circumference(&self) -> Result<(), u8> {
        let in_range = (1..=LARGEST_CIRCUMFERENCE).contains(&self.circumference);
        in_range.then_some(()).ok_or(CIRCUMFERENCE_OUT_OF_RANGE)
    }
}

/// Five bytes: the kind, then the total, low byte first.
pub fn total_cargo(total: u32) -> Vec<u8> {
    let [a, b, c, d] = total.to_le_bytes();
    vec![KIND, a, b, c, d]
}

pub fn total_in(cargo: &[u8]) -> Option<u32> {
    let &[KIND, a, b, c, d] = cargo else {
        return None;
    };
    Some(u32::from_le_bytes([a, b, c, d]))
}
