//! Rules that hold for all inputs, tried on generated ones; and a check that the
//! generators reach every answer.

use second::entry::*;
use second::error_list::*;
use second::gen;
use second::listing::list;
use second::message::*;
use second::receiver::*;
use second::rng::Rng;
use second::sender::*;
use std::collections::BTreeSet;
use std::io::Read;

#[test]
fn receiver_refusals_change_nothing_else() {
    let mut rng = Rng::new(1);
    let mut numbers = BTreeSet::new();
    for round in 0..30_000 {
        let sound = round % 5 > 0;
        let mut state = gen::receiver(&mut rng, sound);
        assert_eq!(state.is_sound(), sound, "{state:?}");
        let mut buffer = vec![0xEE; gen::cargo_buffer_length(&mut rng, &state)];
        let transfer = gen::transfer(&mut rng, &state);
        let (state_before, buffer_before) = (state.clone(), buffer.clone());
        let answer = take(&mut state, &transfer, &mut buffer);
        numbers.insert((answer.number, answer.dropped));
        assert_eq!(state.is_sound(), sound);
        let refused = answer.kind == Kind::Refused;
        assert_eq!(refused, answer.number != 0);
        if refused {
            assert_eq!(buffer, buffer_before);
        }
        if answer.kind == Kind::Null || (refused && answer.number != 20 && answer.number != 21) {
            assert_eq!((state, answer.gap), (state_before, 0));
        }
    }
    let reached: BTreeSet<u8> = numbers.iter().map(|(number, _)| *number).collect();
    assert_eq!(reached, BTreeSet::from([0, 2, 3, 4, 9, 20, 21, 22, 23, 24]));
    for both in [(0, false), (0, true), (21, false), (21, true)] {
        assert!(numbers.contains(&both));
    }
}

#[test]
fn sender_refusals_change_nothing() {
    let mut rng = Rng::new(2);
    let mut numbers = BTreeSet::new();
    for round in 0..30_000 {
        let sound = round % 5 > 0;
        let mut state = gen::sender(&mut rng, sound);
        assert_eq!(state.is_sound(), sound, "{state:?}");
        let call = gen::send_call(&mut rng, &state);
        let mut out = vec![0xEE; call.out_length];
        let before = state.clone();
        let (number, written) = send(&mut state, call.channel, &call.cargo, &mut out);
        numbers.insert(number);
        assert_eq!(state.is_sound(), sound);
        assert!(out[written..].iter().all(|&byte| byte == 0xEE));
        assert_eq!(number == 0, written > 4);
        if number != 0 {
            assert_eq!(state, before);
        }
        let number = abandon(&mut state);
        assert_eq!(number, if sound { 0 } else { 23 });
    }
    assert_eq!(numbers, BTreeSet::from([0, 9, 23, 26, 27, 28, 29]));
}

#[test]
fn sent_cargoes_come_back_in_the_right_number_of_transfers() {
    let mut rng = Rng::new(3);
    for _ in 0..2_000 {
        let limit = rng.between(5, 90);
        let mut sender = Sender::fresh(limit, 32, rng.between(5, limit));
        let mut receiver = Receiver::fresh(limit, 32);
        let mut buffer = vec![0; limit - 4];
        let cargo = gen::cargo(&mut rng, limit - 5);
        let cargo = [&cargo[..], &[9]].concat();
        let channel = rng.below(32);
        let mut out = vec![0; sender.largest_transfer];
        let needed = transfers_needed(cargo.len(), sender.largest_transfer);
        for turn in 1..=needed {
            let (number, written) = send(&mut sender, channel, &cargo, &mut out);
            assert_eq!(number, 0);
            let answer = take(&mut receiver, &out[..written], &mut buffer);
            let whole = Kind::Delivered { channel, length: cargo.len() };
            assert_eq!(answer.kind, if turn == needed { whole } else { Kind::Part });
        }
        assert_eq!((sender.under_way, &buffer[..cargo.len()]), (None, &cargo[..]));
    }
}

#[test]
fn written_messages_are_read_back() {
    let mut rng = Rng::new(4);
    for _ in 0..5_000 {
        let payload = gen::cargo(&mut rng, 60);
        let mut out = vec![0; 3 + 2 * payload.len()];
        let (number, written) = write_message(1, &payload, &mut out);
        assert_eq!(number, 0);
        let mut reader = MessageReader::fresh();
        let mut buffer = vec![0; payload.len() + 1];
        let mut events: Vec<Event> =
            out[..written].iter().map(|&byte| read_byte(&mut reader, &mut buffer, byte)).collect();
        assert_eq!(events.pop(), Some(Event::Message { start: 1, end: payload.len() + 1 }));
        assert!(events.iter().all(|event| *event == Event::Nothing));
        assert_eq!(buffer[1..], payload);
    }
}

/// What stands between the flags of a stream, as a reading of the rules without states.
fn between_flags(stream: &[u8]) -> Vec<&[u8]> {
    let mut pieces: Vec<&[u8]> = stream.split(|&byte| byte == FLAG).skip(1).collect();
    pieces.pop();
    pieces
}

/// Nothing between two flags is no message.
fn messages_by_splitting(stream: &[u8]) -> Vec<&[u8]> {
    between_flags(stream).into_iter().filter(|piece| !piece.is_empty()).collect()
}

/// The bytes that a raw message (flags cut off) means, and whether it ends with a 0x7D that turns
/// nothing.
fn decode(raw: &[u8]) -> (Vec<u8>, bool) {
    let mut decoded = Vec::new();
    let mut escape = false;
    for &byte in raw {
        match (escape, byte) {
            (false, ESCAPE) => escape = true,
            (false, _) => decoded.push(byte),
            (true, _) => {
                decoded.push(byte ^ ESCAPE_MASK);
                escape = false;
            }
        }
    }
    (decoded, escape)
}

/// What a raw message answers, judged as a whole, and the lent buffer after it.
fn judge_whole(raw: &[u8], buffer: &mut [u8]) -> (Event, Vec<u8>) {
    let (decoded, escape) = decode(raw);
    let fitting = decoded.len().min(buffer.len());
    buffer[..fitting].copy_from_slice(&decoded[..fitting]);
    let event = match (decoded.len() > fitting, escape, decoded.first(), decoded.len()) {
        (true, ..) => Event::Refused(32),
        (_, true, ..) => Event::Refused(31),
        (_, _, Some(1), length) => Event::Message { start: 1, end: length },
        (_, _, Some(0), 1) => Event::Query,
        (_, _, Some(0), 3) => Event::Notice { room: u16::from_le_bytes([decoded[1], decoded[2]]) },
        (_, _, Some(0), _) => Event::Refused(33),
        _ => Event::Refused(30),
    };
    (event, buffer.to_vec())
}

/// What the reader tells of a stream, with the lent buffer after each message.
fn read_whole(stream: &[u8], buffer: &mut [u8]) -> Vec<(Event, Vec<u8>)> {
    let mut reader = MessageReader::fresh();
    let mut told = Vec::new();
    for &byte in stream {
        let event = read_byte(&mut reader, buffer, byte);
        if event != Event::Nothing {
            told.push((event, buffer.to_vec()));
        }
    }
    told
}

#[test]
fn reading_byte_by_byte_equals_judging_whole_messages() {
    let mut rng = Rng::new(5);
    let mut numbers = BTreeSet::new();
    for _ in 0..20_000 {
        let some = rng.below(12);
        let room = rng.pick(&[0, 1, 2, 3, 8, 40, 200, some]);
        let stream = gen::uart_stream(&mut rng, 24, 40, 4, room);
        let told = read_whole(&stream, &mut vec![0xEE; room]);
        let mut buffer = vec![0xEE; room];
        let due: Vec<(Event, Vec<u8>)> = messages_by_splitting(&stream)
            .into_iter()
            .map(|raw| judge_whole(raw, &mut buffer))
            .collect();
        assert_eq!(told, due, "{stream:02X?} room {room}");
        for (event, _) in told {
            if let Event::Refused(number) = event {
                numbers.insert(number);
            }
        }
    }
    assert_eq!(numbers, BTreeSet::from([30, 31, 32, 33]));
}

#[test]
fn generated_messages_often_share_a_flag() {
    let mut rng = Rng::new(10);
    let (mut sharing, mut apart, mut noise) = (0, 0, 0);
    for _ in 0..1_000 {
        let stream = gen::uart_stream(&mut rng, 24, 40, 4, 60);
        for pair in between_flags(&stream).windows(2) {
            sharing += usize::from(!pair[0].is_empty() && !pair[1].is_empty());
            apart += usize::from(!pair[0].is_empty() && pair[1].is_empty());
        }
        noise += usize::from(stream.contains(&FLAG) && stream[0] != FLAG);
    }
    println!("flags shared: {sharing}, idle flags: {apart}, streams with noise first: {noise}");
    assert!(sharing > 4_000 && apart > 2_000 && noise > 150);
}

#[test]
fn any_reader_state_is_taken() {
    let mut rng = Rng::new(6);
    for round in 0..20_000 {
        let room = rng.below(6);
        let sound = round % 4 > 0;
        let mut reader = gen::message_reader(&mut rng, room, sound);
        let mut buffer = rng.bytes(room);
        let before = (reader, buffer.clone());
        let byte = rng.pick(&[FLAG, ESCAPE, 0, 1, 0x5E]);
        let event = read_byte(&mut reader, &mut buffer, byte);
        assert_eq!(event == Event::Refused(23), !sound);
        assert_eq!(reader.is_sound(&buffer), sound);
        if !sound || (before.0.phase == Phase::Outside && byte != FLAG) {
            assert_eq!((reader, buffer), before);
        } else if byte == FLAG {
            let open_and_empty = MessageReader { phase: Phase::Inside, held: 0 };
            assert_eq!((reader, buffer), (open_and_empty, before.1));
        }
    }
}

/// Hands out a few bytes at a time.
struct Dribble<'a>(&'a [u8], usize);

impl Read for Dribble<'_> {
    fn read(&mut self, out: &mut [u8]) -> std::io::Result<usize> {
        let size = self.1.min(self.0.len()).min(out.len());
        out[..size].copy_from_slice(&self.0[..size]);
        self.0 = &self.0[size..];
        Ok(size)
    }
}

#[test]
fn the_listing_does_not_depend_on_chunks() {
    let mut rng = Rng::new(7);
    for _ in 0..60 {
        let stream = gen::uart_stream(&mut rng, 24, 60, 32, 32_767);
        let (mut at_once, mut dribbled) = (Vec::new(), Vec::new());
        list(&stream[..], &mut at_once).unwrap();
        list(Dribble(&stream, rng.between(1, 5)), &mut dribbled).unwrap();
        assert_eq!(at_once, dribbled);
        let lines = at_once.iter().filter(|&&byte| byte == b'\n').count();
        assert_eq!(lines, 1 + messages_by_splitting(&stream).len());
    }
}

#[test]
fn walks_of_advertisements() {
    let mut rng = Rng::new(8);
    let mut seen = BTreeSet::new();
    for _ in 0..20_000 {
        let bytes = gen::advertisement(&mut rng);
        let mut open = OpenAdvertisement::open(&bytes, gen::place(&mut rng, bytes.len()));
        loop {
            let place = open.place;
            let (answer, value) = open.next_entry();
            assert_eq!((answer, value), (entry_at(&bytes, place), value_at(&bytes, place)));
            let EntryAnswer::Entry { tag, length, next, mark } = answer else {
                seen.insert(format!("{answer:?}"));
                assert_eq!((open.place, value.len()), (place, 0));
                break;
            };
            seen.insert(format!("{mark:?}"));
            let mut out = vec![0; next - place];
            assert_eq!(write_entry(tag, value, &mut out), (0, next - place));
            assert_eq!((&out[..], value.len()), (&bytes[place..next], usize::from(length)));
        }
    }
    let due = ["Known", "NoMore", "OtherLength", "Refused(34)", "Refused(35)", "Unknown"];
    assert_eq!(seen, BTreeSet::from(due.map(String::from)));
}

#[test]
fn error_lists_of_every_sort() {
    let mut rng = Rng::new(9);
    let mut seen = BTreeSet::new();
    for _ in 0..20_000 {
        let bytes = gen::error_list(&mut rng);
        let place = gen::place(&mut rng, bytes.len());
        let due_count = match bytes.first() {
            Some(1) => CountAnswer::Codes(bytes.len() - 1),
            _ => CountAnswer::Refused(37),
        };
        assert_eq!(count_codes(&bytes), due_count);
        seen.insert(match (due_count, code_at(&bytes, place)) {
            (CountAnswer::Refused(37), CodeAnswer::Refused(37)) => "not a list",
            (CountAnswer::Codes(count), CodeAnswer::NoMore) if place >= count => "no more",
            (CountAnswer::Codes(count), CodeAnswer::Code { code, meaning }) if place < count => {
                assert_eq!((code, meaning.is_some()), (bytes[place + 1], code <= 12));
                if code <= 12 {
                    "known"
                } else {
                    "unknown"
                }
            }
            other => panic!("{other:?}"),
        });
    }
    assert_eq!(seen, BTreeSet::from(["known", "no more", "not a list", "unknown"]));
}
