//! Orders of refusal and edges of 01 that its examples do not show.

use second::entry::{mark_of, value_range, write_entry, Mark};
use second::message::{read_byte, read_byte_for, write_message};
use second::message::{Event, Hearer, LinkEvent, MessageReader, Phase};
use second::receiver::{clear_counts, copy_counts, take, Incoming, Kind, Receiver};
use second::sender::{abandon, send, Outgoing, Sender};

fn last_event(buffer: &mut [u8], stream: &[u8]) -> (Event, MessageReader) {
    let mut reader = MessageReader::fresh();
    let mut last = Event::Nothing;
    for &byte in stream {
        last = read_byte(&mut reader, buffer, byte);
    }
    (last, reader)
}

#[test]
fn receiver_order_of_refusals() {
    // Each step removes the fault that was answered.
    let number = |limit, room, transfer: &[u8]| {
        take(&mut Receiver::fresh(limit, 2), transfer, &mut vec![0; room]).number
    };
    assert_eq!(number(4, 0, &[0xFF, 0xFF, 9]), 23);
    assert_eq!(number(20, 15, &[0xFF, 0xFF, 9]), 24);
    assert_eq!(number(20, 16, &[0xFF, 0xFF, 9]), 2);
    assert_eq!(number(20, 16, &[0xFF, 0xFF, 9, 0]), 22);
    assert_eq!(number(20, 16, &[0x01, 0x80, 9, 0]), 4);
    assert_eq!(number(20, 16, &[21, 0x80, 9, 0]), 3);
    assert_eq!(number(20, 16, &[20, 0x80, 2, 0]), 9);
    assert_eq!(number(20, 16, &[20, 0x80, 1, 0]), 21);
}

#[test]
fn heard_after_a_continuation_not_joined() {
    let mut state = Receiver::fresh(20, 2);
    let mut buffer = [0; 16];
    let lone = take(&mut state, &[6, 0x80, 0, 1, 7, 8], &mut buffer);
    assert_eq!((lone.number, lone.gap, lone.dropped), (21, 1, false));
    assert_eq!(take(&mut state, &[6, 0x80, 0, 1, 7, 8], &mut buffer).number, 20);
    assert_eq!(buffer, [0; 16]);
}

#[test]
fn a_repeat_keeps_the_cargo_under_way() {
    let mut state = Receiver::fresh(20, 2);
    let mut buffer = [0; 16];
    take(&mut state, &[5, 0, 1, 0, 9], &mut buffer);
    take(&mut state, &[8, 0, 0, 0, 1], &mut buffer);
    assert_eq!(take(&mut state, &[5, 0, 1, 0, 9], &mut buffer).number, 20);
    assert_eq!(take(&mut state, &[8, 0, 0, 0, 1], &mut buffer).number, 20);
    let last = take(&mut state, &[7, 0x80, 0, 1, 2, 3, 4], &mut buffer);
    assert_eq!(last.kind, Kind::Delivered { channel: 0, length: 4 });
    assert_eq!(buffer[..4], [1, 2, 3, 4]);
    assert_eq!((state.channels[0].repeats, state.channels[1].repeats), (1, 1));
}

#[test]
fn a_new_transfer_elsewhere_drops() {
    let mut state = Receiver::fresh(20, 2);
    let mut buffer = [0; 16];
    take(&mut state, &[8, 0, 0, 0, 1], &mut buffer);
    let whole = take(&mut state, &[5, 0, 1, 0, 9], &mut buffer);
    assert_eq!((whole.number, whole.dropped, buffer[0]), (0, true, 9));
    let rest = take(&mut state, &[7, 0x80, 0, 1, 2, 3, 4], &mut buffer);
    assert_eq!((rest.number, rest.gap, rest.dropped), (21, 0, false));
}

#[test]
fn a_continuation_on_another_channel_is_not_joined() {
    let mut state = Receiver::fresh(20, 2);
    let mut buffer = [0; 16];
    take(&mut state, &[8, 0, 0, 0, 1], &mut buffer);
    let fitting = take(&mut state, &[7, 0x80, 1, 0, 2, 3, 4], &mut buffer);
    assert_eq!((fitting.number, fitting.gap, fitting.dropped), (21, 0, true));
    assert_eq!((state.under_way, &buffer[..4]), (None, &[1, 0, 0, 0][..]));
}

#[test]
fn counts_run_over_and_clear() {
    let mut state = Receiver::fresh(20, 2);
    let mut buffer = [0; 16];
    state.channels[1].missing = u32::MAX - 1;
    state.channels[1].repeats = u32::MAX;
    state.channels[31].missing = 5;
    take(&mut state, &[5, 0, 1, 3, 9], &mut buffer);
    take(&mut state, &[5, 0, 1, 3, 9], &mut buffer);
    let mut row = [8; 5];
    assert_eq!(copy_counts(&state, &mut row[..3]), 28);
    assert_eq!(copy_counts(&state, &mut row), 0);
    assert_eq!(row, [0, 1, 0, 0, 8]);
    assert_eq!(clear_counts(&mut state), 0);
    assert_eq!((state.channels[1].missing, state.channels[31].missing), (0, 0));
    assert_eq!((state.channels[1].expected, state.channels[1].heard), (4, true));
    state.under_way = Some(Incoming { channel: 2, total: 1, held: 0 });
    assert_eq!(clear_counts(&mut state), 23);
    assert_eq!(copy_counts(&state, &mut row), 23);
}

#[test]
fn sender_order_of_refusals() {
    let mut state = Sender::fresh(20, 2, 8);
    let mut out = [0xEE; 8];
    let long = [5; 17];
    assert_eq!(send(&mut state, 2, &[], &mut out), (9, 0));
    assert_eq!(send(&mut state, 258, &long, &mut out), (9, 0));
    assert_eq!(send(&mut state, 1, &[], &mut out), (26, 0));
    assert_eq!(send(&mut state, 1, &long, &mut out), (27, 0));
    assert_eq!(send(&mut state, 1, &long[..16], &mut out[..7]), (28, 0));
    assert_eq!(send(&mut state, 1, &long[..16], &mut out), (0, 8));
    assert_eq!(send(&mut state, 0, &long[..16], &mut out[..3]), (29, 0));
    assert_eq!(send(&mut state, 1, &long[..15], &mut out[..3]), (29, 0));
    assert_eq!(state.under_way, Some(Outgoing { channel: 1, total: 16, sent: 4 }));
    assert_eq!(abandon(&mut state), 0);
    assert_eq!(abandon(&mut state), 0);
    // The output need hold no more than this transfer.
    assert_eq!(send(&mut state, 0, &[7], &mut out[..4]), (28, 0));
    assert_eq!(send(&mut state, 0, &[7], &mut out[..5]), (0, 5));
    assert_eq!((state.numbers[1], state.under_way), (1, None));
    state.under_way = Some(Outgoing { channel: 1, total: 16, sent: 0 });
    assert_eq!(abandon(&mut state), 23);
}

#[test]
fn message_edges() {
    let event = |room: usize, stream: &[u8]| last_event(&mut vec![0; room], stream).0;
    assert_eq!(event(4, &[0x7E, 0x7D, 0x7E]), Event::Refused(31));
    assert_eq!(event(2, &[0x7E, 1, 2, 0x7D, 0x7E]), Event::Refused(31));
    assert_eq!(event(2, &[0x7E, 1, 2, 0x7D, 0x5E, 0x7E]), Event::Refused(32));
    assert_eq!(event(2, &[0x7E, 1, 2, 3, 0x7D, 0x7E]), Event::Refused(32));
    assert_eq!(event(0, &[0x7E, 1, 0x7E]), Event::Refused(32));
    assert_eq!(
        event(4, &[0x7E, 0x7D, 0x21, 0x7D, 0x7D, 0x7E]),
        Event::Message { start: 1, end: 2 }
    );
    assert_eq!(event(4, &[0x7E, 1, 0x7E]), Event::Message { start: 1, end: 1 });
    assert_eq!(event(4, &[0x7E, 2, 0x7E]), Event::Refused(30));
    assert_eq!(event(4, &[0x7E, 0, 5, 0x7E]), Event::Refused(33));
    assert_eq!(event(4, &[0x7E, 0, 5, 6, 7, 0x7E]), Event::Refused(33));
    assert_eq!(
        event(4, &[9, 0x7D, 0x7E, 0x7E, 0x7E, 0, 5, 6, 0x7E]),
        Event::Notice { room: 0x605 }
    );
}

#[test]
fn a_refused_message_leaves_what_was_read() {
    let mut buffer = [0xEE; 3];
    let (event, reader) = last_event(&mut buffer, &[0x7E, 1, 2, 3, 4, 5, 0x7E]);
    let open_and_empty = MessageReader { phase: Phase::Inside, held: 0 };
    assert_eq!((event, reader), (Event::Refused(32), open_and_empty));
    assert_eq!(buffer, [1, 2, 3]);
    let mut buffer = [0xEE; 3];
    last_event(&mut buffer, &[0x7E, 8, 2, 0x7E]);
    assert_eq!(buffer, [8, 2, 0xEE]);
}

#[test]
fn unsound_reader_answers_at_every_byte() {
    let mut reader = MessageReader { phase: Phase::Outside, held: 3 };
    for byte in [0x7E, 0x00, 0x7D] {
        assert_eq!(read_byte(&mut reader, &mut [0; 2], byte), Event::Refused(23));
    }
    assert_eq!(reader, MessageReader { phase: Phase::Outside, held: 3 });
}

#[test]
fn receiver_refusals_come_at_the_closing_flag() {
    let mut reader = MessageReader::fresh();
    let mut receiver = Receiver::fresh(4, 1);
    let mut buffer = [0; 9];
    let right = Hearer::RIGHT;
    let mut events = Vec::new();
    for byte in [0x7E, 1, 5, 0, 0, 0, 9, 0x7E, 0, 0x7E] {
        events.push(read_byte_for(right, &mut receiver, &mut [], &mut reader, &mut buffer, byte));
    }
    let LinkEvent::Transfer(answer) = events[7] else { panic!("{events:?}") };
    assert_eq!((answer.kind, answer.number), (Kind::Refused, 23));
    assert_eq!(events[9], LinkEvent::Query);
    assert!(events[..7].iter().all(|event| *event == LinkEvent::Nothing));
}

#[test]
fn writers_refuse_in_order() {
    assert_eq!(write_message(2, &[1], &mut []), (30, 0));
    assert_eq!(write_message(0, &[1], &mut [0; 3]), (28, 0));
    assert_eq!(write_message(0, &[1], &mut [0; 4]), (0, 4));
    assert_eq!(write_entry(7, &[0; 256], &mut []), (36, 0));
    assert_eq!(write_entry(7, &[0; 255], &mut [0; 256]), (28, 0));
    assert_eq!(write_entry(7, &[0; 255], &mut [0; 257]), (0, 257));
    assert_eq!(write_entry(7, &[], &mut [0; 2]), (0, 2));
}

#[test]
fn marks_of_tags() {
    for tag in 0..=255 {
        let known = (1..=9).contains(&tag) || tag == 0x80;
        let due = if known { Mark::Known } else { Mark::Unknown };
        for length in [0, 3, 4, 5, 255] {
            let due = match (tag, length) {
                (0x81, 4) => Mark::Known,
                (0x81, _) => Mark::OtherLength,
                _ => due,
            };
            assert_eq!(mark_of(tag, length), due, "tag {tag}");
        }
    }
}

#[test]
fn places_past_the_end() {
    assert_eq!(value_range(&[1, 2, 3], 0), 3..3);
    assert_eq!(value_range(&[1, 0, 3], 0), 2..2);
    assert_eq!(value_range(&[1, 1, 3], usize::MAX), 3..3);
    assert_eq!(value_range(&[1, 1, 3], 0), 2..3);
}
