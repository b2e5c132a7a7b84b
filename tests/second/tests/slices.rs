//! A stream in slices (01, "UART messages"): where a call begins and stops, and the reader's own 23.

use second::gen;
use second::message::{read_byte, Event, LinkEvent, MessageReader, Phase};
use second::numbers::UNSOUND;
use second::receiver::{Incoming, Receiver};
use second::rng::Rng;
use second::slice::{read_on, Listener};

const BUFFER: [u8; 4] = [1, 0x41, 0x42, 0x43];
const SLICE: [u8; 3] = [0x00, 0x7E, 0x7E];
const PHASES: [Phase; 4] = [Phase::Outside, Phase::Inside, Phase::Escaped, Phase::Overlong];
const UNSOUND_HELD: [usize; 3] = [BUFFER.len() + 1, 1 << 63, usize::MAX];
const SOUND_HELD: [usize; 3] = [0, 1, BUFFER.len()];
const PAST_THE_END: [usize; 4] = [SLICE.len() + 1, 70_000, 1 << 63, usize::MAX];

fn readers(held: [usize; 3]) -> impl Iterator<Item = MessageReader> {
    PHASES.into_iter().flat_map(move |phase| held.map(|held| MessageReader { phase, held }))
}

/// What is told of a slice that leaves reader and buffer as they were.
fn read_unchanged(reader: MessageReader, slice: &[u8], from: usize) -> (Event, usize) {
    let (mut after, mut buffer) = (reader, BUFFER);
    let told = read_on(&mut after, &mut buffer, slice, from);
    assert_eq!((after, buffer), (reader, BUFFER));
    told
}

/// The same of a listener, with a cargo under way in its receiver.
fn listen_unchanged(reader: MessageReader, slice: &[u8], from: usize) -> (LinkEvent, usize) {
    let mut receiver = Receiver::fresh(12, 4);
    receiver.under_way = Some(Incoming { channel: 2, total: 8, held: 3 });
    let before = Listener { receiver, reader, message: BUFFER.to_vec(), cargo: vec![0xEE; 8] };
    let mut after = before.clone();
    let told = after.listen_on(slice, from);
    assert_eq!(after, before);
    told
}

#[test]
fn an_unsound_reader_answers_an_empty_slice_with_23() {
    for reader in readers(UNSOUND_HELD) {
        assert_eq!(read_unchanged(reader, &[], 0), (Event::Refused(23), 0));
    }
}

#[test]
fn an_unsound_listener_answers_an_empty_slice_with_23() {
    for reader in readers(UNSOUND_HELD) {
        assert_eq!(listen_unchanged(reader, &[], 0), (LinkEvent::Refused(23), 0));
    }
}

#[test]
fn at_the_end_an_unsound_reader_answers_23() {
    for reader in readers(UNSOUND_HELD) {
        assert_eq!(read_unchanged(reader, &SLICE, 3), (Event::Refused(23), 3));
        assert_eq!(listen_unchanged(reader, &SLICE, 3), (LinkEvent::Refused(23), 3));
    }
}

#[test]
fn past_the_end_an_unsound_reader_answers_23_and_the_place_stays() {
    for (reader, from) in readers(UNSOUND_HELD).flat_map(|one| PAST_THE_END.map(|at| (one, at))) {
        assert_eq!(read_unchanged(reader, &SLICE, from), (Event::Refused(23), from));
        assert_eq!(listen_unchanged(reader, &SLICE, from), (LinkEvent::Refused(23), from));
    }
}

#[test]
fn past_the_end_a_sound_reader_tells_nothing_and_the_place_stays() {
    for (reader, from) in readers(SOUND_HELD).flat_map(|one| PAST_THE_END.map(|at| (one, at))) {
        assert_eq!(read_unchanged(reader, &SLICE, from), (Event::Nothing, from));
        assert_eq!(listen_unchanged(reader, &SLICE, from), (LinkEvent::Nothing, from));
    }
}

#[test]
fn with_no_byte_left_a_reader_of_a_full_buffer_is_sound() {
    for (slice, from) in [(&[][..], 0), (&SLICE, 3)] {
        for reader in readers(SOUND_HELD) {
            assert_eq!(read_unchanged(reader, slice, from), (Event::Nothing, from));
            assert_eq!(listen_unchanged(reader, slice, from), (LinkEvent::Nothing, from));
        }
    }
}

#[test]
fn with_a_byte_left_an_unsound_reader_takes_it_and_answers_23() {
    for (reader, from) in readers(UNSOUND_HELD).flat_map(|one| [0, 1, 2].map(|at| (one, at))) {
        assert_eq!(read_unchanged(reader, &SLICE, from), (Event::Refused(23), from + 1));
        assert_eq!(listen_unchanged(reader, &SLICE, from), (LinkEvent::Refused(23), from + 1));
    }
}

#[test]
fn a_sound_reader_stops_behind_a_message_or_at_the_end() {
    let (mut reader, mut buffer) = (MessageReader::open_and_empty(), BUFFER);
    let mut read = |from| read_on(&mut reader, &mut buffer, &SLICE, from);
    assert_eq!(
        [read(0), read(2), read(3)],
        [(Event::Query, 2), (Event::Nothing, 3), (Event::Nothing, 3)]
    );
}

/// Each event of a stream, with the place behind its byte.
type Events = Vec<(Event, usize)>;

fn told_by_bytes(reader: &mut MessageReader, buffer: &mut [u8], stream: &[u8]) -> Events {
    let events = stream.iter().map(|&byte| read_byte(reader, buffer, byte));
    events.zip(1..).filter(|one| one.0 != Event::Nothing).collect()
}

/// The stream as one slice, with a last call that finds no byte left.
fn told_by_slice(reader: &mut MessageReader, buffer: &mut [u8], stream: &[u8]) -> Events {
    let (mut told, mut from) = (Vec::new(), 0);
    loop {
        let (event, next) = read_on(reader, buffer, stream, from);
        if next == from {
            let sound = reader.is_sound(buffer);
            assert_eq!(event, if sound { Event::Nothing } else { Event::Refused(UNSOUND) });
            return told;
        }
        told.extend((event != Event::Nothing).then_some((event, next)));
        from = next;
    }
}

#[test]
fn a_slice_tells_what_its_bytes_tell() {
    let rng = &mut Rng::new(17);
    for _ in 0..20_000 {
        let room = rng.below(40);
        let start = gen::start(rng, room);
        let stream = gen::uart_stream(rng, 6, 40, 4, room);
        let (mut one, mut other) = (start.clone(), start);
        let bytes = told_by_bytes(&mut one.reader, &mut one.buffer, &stream);
        let slice = told_by_slice(&mut other.reader, &mut other.buffer, &stream);
        assert_eq!((bytes, one.reader, one.buffer), (slice, other.reader, other.buffer));
    }
}
