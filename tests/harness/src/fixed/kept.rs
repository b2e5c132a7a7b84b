//! What the lines of the fixed cases mean: a change of what is kept from line to line, or calls.

use super::line::Line;
use crate::cases::Case;
use crate::entries::*;
use crate::headers::*;
use crate::indexes::*;
use crate::messages::*;
use crate::receivers::{clear_counts_case, copy_counts_case, take_case};
use crate::rows::*;
use crate::senders::{abandon_case, send_case};
use second::entry::OpenAdvertisement;
use second::index::Index;
use second::message::{MessageReader, Phase};
use second::receiver::{Incoming, Receiver};
use second::sender::{Outgoing, Sender};
use second::slice::Listener;

/// What memory has in it that is lent to be written.
const STALE: u8 = 0xEE;
const STALE_NUMBER: u64 = 0xEEEE;
const STALE_COUNT: u32 = 0xEEEE;
const READER_BUFFER: usize = 4;
const LISTENER_BUFFER: usize = 16;

/// Each by its name.
pub type Calls = Vec<(&'static str, Case)>;

/// None where a line is no case: it changed what is kept.
type Meaning = Result<Option<Calls>, String>;

/// The second program's states.
pub struct Kept {
    receiver: Receiver,
    cargo: Vec<u8>,
    sender: Sender,
    index: Index,
    advertisement: Vec<u8>,
}

impl Kept {
    pub fn new() -> Kept {
        Kept {
            receiver: Receiver::fresh(0, 0),
            cargo: Vec::new(),
            sender: Sender::fresh(0, 0, 0),
            index: Index::empty(0),
            advertisement: Vec::new(),
        }
    }

    pub fn meaning(&mut self, line: &mut Line) -> Meaning {
        match line.letter.as_str() {
            "H" => header(line),
            "R" => self.receiver(line),
            "S" => self.sender(line),
            "M" => written_message(line),
            "U" => reader(line),
            "L" => listener(line),
            "A" => advertisement(line),
            "I" => self.index(line),
            "E" => error_list(line),
            letter => Err(format!("no line begins with '{letter}'")),
        }
    }

    fn receiver(&mut self, line: &mut Line) -> Meaning {
        let row = receiver_row(&self.receiver, &[STALE_NUMBER; RECEIVER_ROW - RECEIVER_STATE]);
        match line.verb.as_str() {
            "new" => {
                self.receiver = Receiver::fresh(line.number("limit")?, line.number("count")?);
                self.cargo.clear();
                Ok(None)
            }
            "load" => {
                let (channel, total) = (line.number("on")?, line.number("total")?);
                let held = line.number("held")?;
                self.receiver.under_way = Some(Incoming { channel, total, held });
                Ok(None)
            }
            "set" => {
                let counts = line.small("counts")?;
                for channel in &mut self.receiver.channels {
                    (channel.missing, channel.repeats) = (counts, counts);
                }
                Ok(None)
            }
            "take" | "once" => self.take(line, &row),
            "counts" => {
                let mut places = vec![STALE_COUNT; line.number("places")?];
                one("copy_counts", copy_counts_case(&self.receiver, &row, &mut places))
            }
            "clear" => one("clear_counts", clear_counts_case(&mut self.receiver, &row)),
            _ => no_meaning(line),
        }
    }

    fn take(&mut self, line: &mut Line, row: &[u64]) -> Meaning {
        let (mut receiver, mut cargo) = (self.receiver.clone(), self.cargo.clone());
        cargo.resize(line.number("room")?, STALE);
        let case = take_case(&mut receiver, row, &line.bytes()?, cargo);
        if line.verb == "take" {
            (self.receiver, self.cargo) = (receiver, case.after("cargo").to_vec());
        }
        one("take", case)
    }

    fn sender(&mut self, line: &mut Line) -> Meaning {
        let row = sender_row(&self.sender, STALE_NUMBER);
        match line.verb.as_str() {
            "new" => {
                let (limit, count) = (line.number("limit")?, line.number("count")?);
                self.sender = Sender::fresh(limit, count, line.number("T")?);
                Ok(None)
            }
            "load" => {
                let (channel, total) = (line.number("on")?, line.number("total")?);
                let sent = line.number("sent")?;
                self.sender.under_way = Some(Outgoing { channel, total, sent });
                Ok(None)
            }
            "set" => {
                self.sender.numbers.fill(line.small("number")?);
                Ok(None)
            }
            "send" | "once" => {
                let mut sender = self.sender.clone();
                let (channel, cargo) = (line.number("on")?, line.bytes()?);
                let case = send_case(&mut sender, &row, channel, &cargo, output(line)?);
                if line.verb == "send" {
                    self.sender = sender;
                }
                one("send", case)
            }
            "abandon" => one("abandon", abandon_case(&mut self.sender, &row)),
            _ => no_meaning(line),
        }
    }

    fn index(&mut self, line: &mut Line) -> Meaning {
        match line.verb.as_str() {
            "put" => {
                self.advertisement.truncate(line.number_or_none("at").unwrap_or(0));
                self.advertisement.extend(line.bytes()?);
                Ok(None)
            }
            "set" => {
                self.index.count = line.number("count")?;
                Ok(None)
            }
            "build" | "once" => {
                let (case, index) = build_case(self.lent(line)?, line.number("at")?);
                if line.verb == "build" {
                    self.index = index;
                }
                one("build_index", case)
            }
            "extend" => {
                let lent = self.lent(line)?.to_vec();
                one("extend_index", extend_case(&mut self.index, &lent))
            }
            "ask" => {
                let (lent, index) = (self.lent(line)?, &self.index);
                let (tag, occurrence) = (line.small("tag")?, line.number("occurrence")?);
                let question = Question { tag, occurrence };
                Ok(Some(vec![
                    ("find_tag", find_case(index, lent, &question)),
                    ("tag_value", value_case(index, lent, &question)),
                ]))
            }
            _ => no_meaning(line),
        }
    }

    /// The front of the advertisement that a line lends.
    fn lent(&self, line: &mut Line) -> Result<&[u8], String> {
        let whole = self.advertisement.len();
        let front = self.advertisement.get(..line.number("lent")?);
        front.ok_or_else(|| format!("only {whole} bytes can be lent"))
    }
}

fn one(name: &'static str, case: Case) -> Meaning {
    Ok(Some(vec![(name, case)]))
}

fn no_meaning(line: &Line) -> Meaning {
    Err(format!("'{} {}' has no meaning", line.letter, line.verb))
}

fn output(line: &mut Line) -> Result<Vec<u8>, String> {
    Ok(vec![STALE; line.number("room")?])
}

fn header(line: &mut Line) -> Meaning {
    match line.verb.as_str() {
        "read" => one("read_header", read_header_case(&line.bytes()?)),
        "write" => {
            let header = Header {
                continuation: line.number("continuation")? != 0,
                length: line.number("L")?,
                channel: line.number("on")?,
                number: line.small("number")?,
            };
            one("write_header", write_header_case(&header, output(line)?))
        }
        "next" => one("next_number", next_number_case(line.small("of")?)),
        "gap" => one("gap", gap_case(line.small("received")?, line.small("expected")?)),
        _ => no_meaning(line),
    }
}

fn written_message(line: &mut Line) -> Meaning {
    let out = output(line)?;
    match line.verb.as_str() {
        "write" => {
            let (id, payload) = (line.small("id")?, line.bytes()?);
            one("write", write_case(id, &payload, out))
        }
        "query" => one("write_query", write_query_case(out)),
        "notice" => one("write_notice", write_notice_case(line.small("of")?, out)),
        _ => no_meaning(line),
    }
}

/// A reader with stale numbers behind its state.
fn reader_row(reader: &MessageReader, places: usize) -> Vec<u64> {
    let mut row = reader_state(reader);
    row.resize(places, STALE_NUMBER);
    row
}

/// A stream read byte by byte, then as one slice until no byte is left, and once more.
fn reader(line: &mut Line) -> Meaning {
    let phase = match line.verb.as_str() {
        "outside" => Phase::Outside,
        "inside" => Phase::Inside,
        _ => return no_meaning(line),
    };
    let start = MessageReader { phase, held: line.number_or_none("held").unwrap_or(0) };
    let (stream, mut from) = (line.bytes()?, line.number_or_none("from").unwrap_or(0));
    let mut calls = Vec::new();
    let (mut reader, mut message) = (start, [STALE; READER_BUFFER]);
    for &byte in stream.iter().skip(from) {
        let row = reader_row(&reader, STEP_ROW);
        calls.push(("step", step_case(&mut reader, &row, byte, &mut message)));
    }
    let (mut reader, mut message) = (start, [STALE; READER_BUFFER]);
    loop {
        let row = reader_row(&reader, READER_ROW);
        let (case, next) = read_case(&mut reader, &row, &stream, from, &mut message);
        calls.push(("read", case));
        if next == from {
            return Ok(Some(calls));
        }
        from = next;
    }
}

/// A stream listened to as one slice until no byte is left, and once more.
fn listener(line: &mut Line) -> Meaning {
    if line.verb != "hear" {
        return no_meaning(line);
    }
    let (stream, mut from) = (line.bytes()?, line.number_or_none("from").unwrap_or(0));
    let held = line.number_or_none("held").unwrap_or(0);
    let mut state = Listener {
        receiver: Receiver::fresh(line.number("limit")?, line.number("count")?),
        reader: MessageReader { held, ..MessageReader::fresh() },
        message: vec![STALE; LISTENER_BUFFER],
        cargo: output(line)?,
    };
    let mut calls = Vec::new();
    loop {
        let mut row = receiver_row(&state.receiver, &[STALE_NUMBER; RECEIVER_ROW - RECEIVER_STATE]);
        row.extend(reader_row(&state.reader, LISTENER_ROW - RECEIVER_ROW));
        let (case, next) = listen_case(&mut state, &row, &stream, from);
        calls.push(("listen", case));
        if next == from {
            return Ok(Some(calls));
        }
        from = next;
    }
}

fn advertisement(line: &mut Line) -> Meaning {
    let cargo = line.bytes()?;
    match line.verb.as_str() {
        "write" => {
            let tag = line.small("tag")?;
            one("write_entry", write_entry_case(tag, &cargo, output(line)?))
        }
        "entry" => {
            let open = &mut OpenAdvertisement::open(&cargo, line.number("at")?);
            Ok(Some(entry_calls(open)))
        }
        "walk" => {
            let open = &mut OpenAdvertisement::open(&cargo, line.number("at")?);
            let mut calls = Vec::new();
            loop {
                let place = open.place;
                calls.extend(entry_calls(open));
                if open.place == place {
                    return Ok(Some(calls));
                }
            }
        }
        _ => no_meaning(line),
    }
}

/// All that is told of the entry at a place; the place moves on.
fn entry_calls(open: &mut OpenAdvertisement) -> Calls {
    let (cargo, place) = (open.advertisement, open.place);
    vec![
        ("entry_at", entry_at_case(cargo, place)),
        ("value_at", value_at_case(cargo, place)),
        ("next_entry", next_entry_case(open)),
    ]
}

fn error_list(line: &mut Line) -> Meaning {
    let cargo = line.bytes()?;
    match line.verb.as_str() {
        "count" => one("count_codes", count_codes_case(&cargo)),
        "code" => one("code_at", code_at_case(&cargo, line.number("at")?)),
        _ => no_meaning(line),
    }
}
