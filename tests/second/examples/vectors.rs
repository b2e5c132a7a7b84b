//! What the program `vectors` must write of a file of cases, put to this second reading of the
//! documents. The file's first lines say its form.
//!
//!     cargo run --offline --release --example vectors -- CASES

use second::message::{read_byte_for, write_message, Hearer, LinkEvent, MessageReader, SHTP_ID};
use second::receiver::Receiver;
use second::sender::{send, Sender};
use std::fs::read_to_string;
use std::process::ExitCode;

/// What buffers and outputs hold before a case.
const STALE: u8 = 0xEE;
const LIMIT: usize = 12;
const CHANNELS: usize = 32;
const SENT_ON: usize = 2;
const OUTPUT: usize = 12;
const MESSAGE_BUFFER: usize = 16;
const CARGO_BUFFER: usize = 8;

fn main() -> ExitCode {
    let arguments: Vec<String> = std::env::args().skip(1).collect();
    let [path] = &arguments[..] else {
        eprintln!("usage: vectors CASES");
        return ExitCode::from(2);
    };
    let told = read_to_string(path).map_err(|why| why.to_string()).and_then(|file| told(&file));
    match told {
        Ok(text) => {
            print!("{text}");
            ExitCode::SUCCESS
        }
        Err(why) => {
            eprintln!("vectors: {path}: {why}");
            ExitCode::from(2)
        }
    }
}

fn told(file: &str) -> Result<String, String> {
    let lines = (1..).zip(file.lines());
    lines.map(|(number, line)| case(line).map_err(|why| format!("line {number}: {why}"))).collect()
}

/// What is written of one line.
fn case(line: &str) -> Result<String, String> {
    let Some((label, case)) = line.split_once('\t') else {
        return Ok(format!("{line}\n"));
    };
    let (letter, bytes) = case.split_once(' ').ok_or("there are no bytes")?;
    let bytes = hexadecimal(bytes)?;
    let told = match letter {
        "S" => sent_text(bytes[0], &bytes[1..]),
        "M" => written_text(|out| write_message(SHTP_ID, &bytes, out)),
        "L" => heard_text(&bytes),
        _ => return Err(format!("'{letter}' is no case")),
    };
    Ok(format!("{label}:{told}\n"))
}

fn hexadecimal(words: &str) -> Result<Vec<u8>, String> {
    let byte = |word: &str| {
        let digits = word.len() == 2 && word.bytes().all(|digit| digit.is_ascii_hexdigit());
        let byte = u8::from_str_radix(word, 16).ok().filter(|_| digits);
        byte.ok_or_else(|| format!("'{word}' is no byte"))
    };
    words.split(' ').map(byte).collect()
}

fn sent_text(largest: u8, cargo: &[u8]) -> String {
    let mut sender = Sender::fresh(LIMIT, CHANNELS, usize::from(largest));
    written_text(|out| send(&mut sender, SENT_ON, cargo, out))
}

/// The answer's number, how many bytes were written, and the whole output.
fn written_text(write: impl FnOnce(&mut [u8]) -> (u8, usize)) -> String {
    let mut out = [STALE; OUTPUT];
    let (number, written) = write(&mut out);
    format!(" answer {number}, written {written};{}", bytes_text(&out))
}

/// Each piece of news behind a blank, then the whole cargo buffer.
fn heard_text(stream: &[u8]) -> String {
    let (mut receiver, mut reader) = (Receiver::fresh(LIMIT, CHANNELS), MessageReader::fresh());
    let (mut cargo, mut message) = ([STALE; CARGO_BUFFER], [STALE; MESSAGE_BUFFER]);
    let mut told = String::new();
    for &byte in stream {
        let (receiver, reader) = (&mut receiver, &mut reader);
        told +=
            &match read_byte_for(Hearer::RIGHT, receiver, &mut cargo, reader, &mut message, byte) {
                LinkEvent::Nothing => String::new(),
                LinkEvent::Transfer(answer) => format!(" transfer {}", answer.number),
                LinkEvent::Query => " query".to_string(),
                LinkEvent::Notice { room } => format!(" notice {room}"),
                LinkEvent::Refused(number) => format!(" refused {number}"),
            };
    }
    format!("{told};{}", bytes_text(&cargo))
}

fn bytes_text(bytes: &[u8]) -> String {
    bytes.iter().map(|byte| format!(" {byte:02x}")).collect()
}
