//! The listing program's text (01, behind "Both sides of each line").

use crate::header::{HEADER_BYTES, LARGEST_LENGTH};
use crate::message::{read_byte_for, Hearer, LinkEvent, MessageReader};
use crate::numbers::{CHANNEL_UNKNOWN, NOT_JOINED, REPEAT};
use crate::receiver::{delivered_part, Answer, Incoming, Kind, Receiver, MOST_CHANNELS};
use std::io::{self, ErrorKind, Read, Write};

pub const HEADING: &str = "event\tchannel\tbytes\tnumber\tgap\tdropped\n";

const MESSAGE_BUFFER: usize = 32_767;
const CHUNK: usize = 4_096;
/// Behind the ID byte, the payload's third byte is the channel.
const CHANNEL_PLACE: usize = 1 + 2;

/// All that the program keeps between two bytes of its input.
pub struct Listing {
    hearer: Hearer,
    receiver: Receiver,
    cargo_buffer: Vec<u8>,
    reader: MessageReader,
    message_buffer: Vec<u8>,
}

/// What a closed message gives: its line, and the channel and bytes of a cargo that it delivered.
pub struct Closed<'a> {
    pub line: String,
    pub cargo: Option<(usize, &'a [u8])>,
}

struct Line {
    event: &'static str,
    channel: Option<usize>,
    bytes: usize,
    number: u8,
    gap: u8,
    dropped: bool,
}

impl Listing {
    pub fn hearing_by(hearer: Hearer) -> Listing {
        Listing {
            hearer,
            receiver: Receiver::fresh(LARGEST_LENGTH, MOST_CHANNELS),
            cargo_buffer: vec![0; LARGEST_LENGTH - HEADER_BYTES],
            reader: MessageReader::fresh(),
            message_buffer: vec![0; MESSAGE_BUFFER],
        }
    }

    /// Takes one byte, which may close a message.
    pub fn take_byte(&mut self, byte: u8) -> Option<Closed<'_>> {
        let event = read_byte_for(
            self.hearer,
            &mut self.receiver,
            &mut self.cargo_buffer,
            &mut self.reader,
            &mut self.message_buffer,
            byte,
        );
        let line = line_of(&event, self.receiver.under_way, &self.message_buffer)?;
        let LinkEvent::Transfer(answer) = event else {
            return Some(Closed { line, cargo: None });
        };
        let Kind::Delivered { channel, .. } = answer.kind else {
            return Some(Closed { line, cargo: None });
        };
        Some(Closed { line, cargo: Some((channel, delivered_part(&answer, &self.cargo_buffer))) })
    }
}

/// The line of an event, with the cargo under way and the message buffer after it. The message of
/// an answer that tells a channel has at least four bytes.
pub fn line_of(event: &LinkEvent, under_way: Option<Incoming>, message: &[u8]) -> Option<String> {
    let line = match *event {
        LinkEvent::Nothing => return None,
        LinkEvent::Query => plain("query", 0, 0),
        LinkEvent::Notice { room } => plain("notice", usize::from(room), 0),
        LinkEvent::Refused(number) => plain("refused", 0, number),
        LinkEvent::Transfer(answer) => transfer_line(answer, under_way, message),
    };
    Some(line.text())
}

fn transfer_line(answer: Answer, under_way: Option<Incoming>, message: &[u8]) -> Line {
    let (event, channel, bytes) = match answer.kind {
        Kind::Delivered { channel, length } => ("cargo", Some(channel), length),
        Kind::Part => {
            let held = under_way.map_or(0, |cargo| cargo.held);
            ("part", under_way.map(|cargo| cargo.channel), held)
        }
        Kind::Null => ("null", None, 0),
        Kind::Refused => ("refused", refused_channel(answer.number, message), 0),
    };
    Line { event, channel, bytes, number: answer.number, gap: answer.gap, dropped: answer.dropped }
}

fn refused_channel(number: u8, message: &[u8]) -> Option<usize> {
    [CHANNEL_UNKNOWN, REPEAT, NOT_JOINED]
        .contains(&number)
        .then(|| usize::from(message[CHANNEL_PLACE]))
}

/// A line without channel, gap and drop.
fn plain(event: &'static str, bytes: usize, number: u8) -> Line {
    Line { event, channel: None, bytes, number, gap: 0, dropped: false }
}

impl Line {
    fn text(&self) -> String {
        format!(
            "{}\t{}\t{}\t{}\t{}\t{}\n",
            self.event,
            or_dash(self.channel),
            self.bytes,
            self.number,
            self.gap,
            u8::from(self.dropped)
        )
    }
}

/// The field of a value that may be lacking.
pub fn or_dash(value: Option<impl ToString>) -> String {
    value.map_or("-".to_string(), |value| value.to_string())
}

/// Lists a whole stream.
pub fn list(input: impl Read, mut output: impl Write) -> io::Result<()> {
    output.write_all(HEADING.as_bytes())?;
    hear_stream(Hearer::RIGHT, input, |closed| output.write_all(closed.line.as_bytes()))?;
    output.flush()
}

/// Hears a whole stream, chunk by chunk, and hands on what each closed message gives.
pub fn hear_stream(
    hearer: Hearer,
    mut input: impl Read,
    mut hand_on: impl FnMut(Closed) -> io::Result<()>,
) -> io::Result<()> {
    let mut listing = Listing::hearing_by(hearer);
    let mut chunk = [0; CHUNK];
    loop {
        let size = match input.read(&mut chunk) {
            Ok(0) => return Ok(()),
            Ok(size) => size,
            Err(error) if error.kind() == ErrorKind::Interrupted => continue,
            Err(error) => return Err(error),
        };
        for &byte in &chunk[..size] {
            if let Some(closed) = listing.take_byte(byte) {
                hand_on(closed)?;
            }
        }
    }
}
