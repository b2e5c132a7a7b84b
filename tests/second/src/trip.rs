//! The trip program's text (02, request 9): what an odometer makes of a UART stream.

use crate::listing::{hear_stream, or_dash};
use crate::message::Hearer;
use crate::odometer::{total_in, Odometer, Outcome, LARGEST_CIRCUMFERENCE};
use crate::receiver::MOST_CHANNELS;
use crate::wrong::hearer;
use std::io::{self, Read, Write};
use std::ops::RangeInclusive;

pub const HEADING: &str = "event\ttotal\tturns\tmillimetres\n";

pub const USE: &str = "trip: use it as trip CHANNEL CIRCUMFERENCE < STREAM";
pub const CHANNEL_WRONG: &str = "trip: the channel is a number from 0 to 31";
pub const CIRCUMFERENCE_WRONG: &str =
    "trip: the circumference is a number of millimetres from 1 to 10000";

/// The hearer and the odometer that the arguments ask for, or what is wrong with them. Behind
/// the program's own two may stand the name of a hearer.
pub fn settings(words: &[&str]) -> Result<(Hearer, Odometer), &'static str> {
    let (hearer, channel, circumference) = match *words {
        [channel, circumference] => (Hearer::RIGHT, channel, circumference),
        [channel, circumference, name] => (hearer(name).ok_or(USE)?, channel, circumference),
        _ => return Err(USE),
    };
    let channel = number(channel, 0..=MOST_CHANNELS as u64 - 1).ok_or(CHANNEL_WRONG)?;
    let circumference =
        number(circumference, 1..=LARGEST_CIRCUMFERENCE).ok_or(CIRCUMFERENCE_WRONG)?;
    Ok((hearer, Odometer::fresh(channel as usize, circumference)))
}

/// Decimal digits alone, so without the sign that `parse` allows.
fn number(word: &str, range: RangeInclusive<u64>) -> Option<u64> {
    let digits = Some(word).filter(|word| word.bytes().all(|byte| byte.is_ascii_digit()))?;
    digits.parse().ok().filter(|number| range.contains(number))
}

/// Takes an odometer through a whole stream, as this hearer hears it.
pub fn trip(
    hearer: Hearer,
    mut odometer: Odometer,
    input: impl Read,
    mut output: impl Write,
) -> io::Result<()> {
    output.write_all(HEADING.as_bytes())?;
    hear_stream(hearer, input, |closed| {
        let told = closed.cargo.and_then(|(channel, cargo)| {
            let outcome = odometer.hear(channel, cargo);
            line(outcome, cargo, &odometer)
        });
        told.map_or(Ok(()), |line| output.write_all(line.as_bytes()))
    })?;
    output.flush()
}

/// The line of a heard cargo, with the odometer after it; none if it was passed over.
fn line(outcome: Outcome, cargo: &[u8], odometer: &Odometer) -> Option<String> {
    let event = match outcome {
        Outcome::Passed => return None,
        Outcome::Base => "base".to_string(),
        Outcome::Advanced(_) => "advanced".to_string(),
        Outcome::Refused(number) => format!("refused-{number}"),
    };
    let (total, millimetres) = (or_dash(total_in(cargo)), or_dash(odometer.distance().ok()));
    Some(format!("{event}\t{total}\t{}\t{millimetres}\n", odometer.turns))
}
