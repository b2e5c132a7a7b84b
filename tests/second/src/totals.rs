//! A listing that shows the class the turn totals in the cargoes.

use crate::listing::{hear_stream, Closed, HEADING};
use crate::message::Hearer;
use crate::odometer::total_in;
use std::io::{self, Read, Write};

/// The channel that the class's hub sends its totals on.
pub const TOTALS_CHANNEL: usize = 3;

/// What the class's odometer is set to: a counted turn is four turns of a wheel of 1,600 mm.
pub const CIRCUMFERENCE_MM: u64 = 6_400;

/// Kilometres as a display has them, cut to a tenth.
fn kilometres(total: u32) -> String {
    let hundreds_of_metres = u64::from(total) * CIRCUMFERENCE_MM / 100_000;
    format!("{}.{}", hundreds_of_metres / 10, hundreds_of_metres % 10)
}

/// Lists a whole stream as this hearer hears it, with the total and the kilometres of each cargo
/// that has them behind its line.
pub fn list_totals(hearer: Hearer, input: impl Read, mut output: impl Write) -> io::Result<()> {
    writeln!(output, "{}\ttotal\tkm", HEADING.trim_end())?;
    hear_stream(hearer, input, |closed| {
        writeln!(output, "{}\t{}", closed.line.trim_end(), reading(&closed))
    })?;
    output.flush()
}

fn reading(closed: &Closed) -> String {
    let on_channel = closed.cargo.filter(|cargo| cargo.0 == TOTALS_CHANNEL);
    match on_channel.and_then(|cargo| total_in(cargo.1)) {
        Some(total) => format!("{total}\t{}", kilometres(total)),
        None => "-\t-".to_string(),
    }
}
