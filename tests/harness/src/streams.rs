//! The listing program against the second program's listing, on generated streams.

use crate::run::Run;
use crate::show::values;
use crate::shrink::{show, Difference, Trial};
use second::gen;
use second::header::LARGEST_LENGTH;
use second::listing::list;
use second::receiver::MOST_CHANNELS;
use second::rng::Rng;
use std::io::{Error, ErrorKind, Result, Write};
use std::process::{Command, Stdio};
use std::thread;

const MESSAGE_BUFFER: usize = 32_767;
/// The most in one stream.
const MESSAGES: usize = 24;
/// Streams that are read behind each other in one run.
const GROUP: usize = 50;
/// Bytes of an input that are shown.
const SHOWN: usize = 10_000;

/// Streams on which the two differ: those of `count` seeds from this one on, behind each other.
struct Found {
    seed: u64,
    count: usize,
    stream: Vec<u8>,
}

/// Compares the listings of `streams` streams; tells whether all agree.
pub fn list_all(run: &Run, seed: u64, streams: usize) -> Result<bool> {
    let mut found: Vec<Found> = Vec::new();
    for first in (0..streams).step_by(GROUP) {
        let (seed, count) = (seed.wrapping_add(first as u64), GROUP.min(streams - first));
        let seeds = (0..count as u64).map(|place| seed.wrapping_add(place));
        let group: Vec<Found> =
            seeds.map(|seed| Found { seed, count: 1, stream: stream(seed) }).collect();
        let joined = group.iter().flat_map(|one| one.stream.clone()).collect();
        let joined = Found { seed, count, stream: joined };
        if agree(&run.command, &joined.stream)? {
            continue;
        }
        // One stream alone is a smaller input, where it shows the difference too.
        for one in group {
            if !agree(&run.command, &one.stream)? {
                found.push(one);
            }
        }
        found.push(joined);
    }
    println!("{streams:>9} streams, {:>3} differ: listing", found.len());
    let Some(Found { seed, count, stream }) = found.iter().min_by_key(|one| one.stream.len())
    else {
        return Ok(true);
    };
    let trial = &mut Listings { command: &run.command };
    let numbers: Vec<u64> = stream.iter().map(|&byte| u64::from(byte)).collect();
    show(run, trial, &numbers, &format!("listing {seed} {count}"), "listing")?;
    Ok(false)
}

/// Listings of streams that are their numbers, one by one.
pub struct Listings<'a> {
    pub command: &'a [String],
}

impl Trial for Listings<'_> {
    fn differs(&mut self, numbers: &[u64]) -> Result<Option<Difference>> {
        let Some(input) = bytes_of(numbers) else {
            return Ok(None);
        };
        let (second, proved) = (second_listing(&input)?, output_of(self.command, &input)?);
        let drawn = numbers.to_vec();
        Ok(difference_of(&input, &second, &proved).map(|text| Difference { drawn, input, text }))
    }
}

pub fn bytes_of(numbers: &[u64]) -> Option<Vec<u8>> {
    numbers.iter().map(|&number| u8::try_from(number).ok()).collect()
}

/// An input's first bytes, and the first line on which the two differ.
pub fn difference_of(input: &[u8], second: &[u8], proved: &[u8]) -> Option<String> {
    if second == proved {
        return None;
    }
    let same = second.iter().zip(proved).take_while(|(ours, theirs)| ours == theirs).count();
    let start = second[..same].iter().rposition(|&byte| byte == b'\n').map_or(0, |end| end + 1);
    let number = second[..start].iter().filter(|&&byte| byte == b'\n').count() + 1;
    let line = |text: &[u8]| {
        let line = text[start..].split(|&byte| byte == b'\n').next().unwrap_or_default();
        String::from_utf8_lossy(line).into_owned()
    };
    let shown = values(&input[..input.len().min(SHOWN)], 1);
    let (length, second, proved) = (input.len(), line(second), line(proved));
    Some(format!(
        "    {length} bytes: {shown}\n  line {number} differs\n  \
           second program: {second}\n  proved code:    {proved}\n"
    ))
}

/// Writes streams behind each other, until `bytes` bytes are out.
pub fn write_streams(seed: u64, bytes: usize, mut output: impl Write) -> Result<()> {
    let mut left = bytes;
    for place in 0.. {
        let stream = stream(seed.wrapping_add(place));
        let part = &stream[..stream.len().min(left)];
        output.write_all(part)?;
        left -= part.len();
        if left == 0 {
            break;
        }
    }
    output.flush()
}

fn stream(seed: u64) -> Vec<u8> {
    let rng = &mut Rng::new(seed);
    // Long messages that pass the buffer are seldom: they make a stream of some 32 kB.
    let buffer = if rng.percent(5) { MESSAGE_BUFFER } else { 60 };
    gen::uart_stream(rng, MESSAGES, LARGEST_LENGTH, MOST_CHANNELS, buffer)
}

fn agree(command: &[String], stream: &[u8]) -> Result<bool> {
    Ok(second_listing(stream)? == output_of(command, stream)?)
}

fn second_listing(stream: &[u8]) -> Result<Vec<u8>> {
    let mut text = Vec::new();
    list(stream, &mut text)?;
    Ok(text)
}

/// What a program writes of this stream.
pub fn output_of(command: &[String], stream: &[u8]) -> Result<Vec<u8>> {
    let mut child = Command::new(&command[0])
        .args(&command[1..])
        .stdin(Stdio::piped())
        .stdout(Stdio::piped())
        .spawn()?;
    let mut stdin = child.stdin.take().expect("a pipe was asked for");
    let bytes = stream.to_vec();
    let writer = thread::spawn(move || stdin.write_all(&bytes));
    let output = child.wait_with_output()?;
    match writer.join().expect("the writer does not panic") {
        // Then it ended early, which what it wrote shows.
        Err(error) if error.kind() == ErrorKind::BrokenPipe => {}
        written => written?,
    }
    if !output.status.success() {
        return Err(Error::other(format!("{} ended with {}", command.join(" "), output.status)));
    }
    Ok(output.stdout)
}
