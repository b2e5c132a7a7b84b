//! The examples of 01, "Both sides of each line" and "What students hand in".

use second::header::{read_header, write_header, Fields, Reading};
use second::listing::list;
use second::message::{read_byte, write_message, Event, MessageReader};
use second::receiver::{copy_counts, delivered_part, take, Answer, Kind, Receiver};
use second::sender::{send, Sender};

const LIMIT: usize = 32_766;
const ROOM: usize = 32_762;

fn answer(kind: Kind, number: u8, gap: u8, dropped: bool) -> Answer {
    Answer { kind, number, gap, dropped }
}

fn delivered(channel: usize, length: usize) -> Answer {
    answer(Kind::Delivered { channel, length }, 0, 0, false)
}

fn refused(number: u8) -> Answer {
    answer(Kind::Refused, number, 0, false)
}

fn take_all(transfers: &[&[u8]]) -> (Receiver, Vec<Answer>, Vec<u8>) {
    let mut state = Receiver::fresh(LIMIT, 32);
    let mut buffer = vec![0xEE; ROOM];
    let answers =
        transfers.iter().map(|transfer| take(&mut state, transfer, &mut buffer)).collect();
    (state, answers, buffer)
}

#[test]
fn p1_ten_bytes_in_three_transfers() {
    let cargo: Vec<u8> = (0x41..=0x4A).collect();
    let mut state = Sender::fresh(LIMIT, 32, 8);
    let mut out = [0xEE; 9];
    let due: [&[u8]; 3] = [
        &[0x0E, 0x00, 0x03, 0x00, 0x41, 0x42, 0x43, 0x44],
        &[0x0A, 0x80, 0x03, 0x01, 0x45, 0x46, 0x47, 0x48],
        &[0x06, 0x80, 0x03, 0x02, 0x49, 0x4A],
    ];
    for transfer in due {
        out.fill(0xEE);
        assert_eq!(send(&mut state, 3, &cargo, &mut out), (0, transfer.len()));
        assert_eq!(&out[..transfer.len()], transfer);
        assert!(out[transfer.len()..].iter().all(|&byte| byte == 0xEE));
    }
    assert_eq!(state.under_way, None);
    let (_, answers, buffer) = take_all(&due);
    assert_eq!(answers[2], delivered(3, 10));
    assert_eq!(delivered_part(&answers[2], &buffer), cargo);
}

#[test]
fn p2_p3_length_four_and_five() {
    assert_eq!(take_all(&[&[4, 0, 0, 0]]).1, [refused(4)]);
    assert_eq!(take_all(&[&[4, 0x80, 0, 0]]).1, [refused(4)]);
    assert_eq!(take_all(&[&[5, 0, 0, 0, 0x99]]).1, [delivered(0, 1)]);
}

#[test]
fn p4_largest_length_at_that_limit() {
    let mut transfer = vec![0xFE, 0x7F, 0, 0];
    transfer.resize(LIMIT, 0x33);
    let (_, answers, buffer) = take_all(&[&transfer]);
    assert_eq!(answers, [delivered(0, ROOM)]);
    assert_eq!(delivered_part(&answers[0], &buffer), vec![0x33; ROOM]);
    let mut state = Receiver::fresh(LIMIT - 1, 32);
    assert_eq!(take(&mut state, &transfer, &mut vec![0; ROOM]), refused(3));
}

#[test]
fn p5_reserved_length() {
    assert_eq!(take_all(&[&[0xFF, 0x7F, 0, 0]]).1, [refused(22)]);
    assert_eq!(take_all(&[&[0xFF, 0xFF, 0, 0]]).1, [refused(22)]);
}

#[test]
fn p6_p7_three_and_four_zero_bytes() {
    assert_eq!(take_all(&[&[0, 0, 0]]).1, [refused(2)]);
    let null = answer(Kind::Null, 0, 0, false);
    assert_eq!(take_all(&[&[0, 0, 0, 0]]).1, [null]);
    assert_eq!(take_all(&[&[0, 0x80, 99, 7, 1, 2]]).1, [null]);
}

#[test]
fn p8_header_alone_then_the_rest() {
    let (_, answers, buffer) = take_all(&[&[6, 0, 1, 0], &[6, 0x80, 1, 1, 0xAA, 0xBB]]);
    assert_eq!(answers, [answer(Kind::Part, 0, 0, false), delivered(1, 2)]);
    assert_eq!(buffer[..3], [0xAA, 0xBB, 0xEE]);
}

/// The answer to a second number, a first having been heard.
fn after(first: u8, second: u8) -> (Answer, u32, u32) {
    let (state, answers, _) = take_all(&[&[5, 0, 2, first, 1], &[5, 0, 2, second, 2]]);
    (answers[1], state.channels[2].missing - u32::from(first), state.channels[2].repeats)
}

#[test]
fn p9_p10_p11_numbers_after_a_heard_one() {
    let whole = Kind::Delivered { channel: 2, length: 1 };
    assert_eq!(after(9, 8), (answer(whole, 0, 254, false), 254, 0));
    assert_eq!(after(9, 9), (refused(20), 0, 1));
    assert_eq!(after(255, 0), (answer(whole, 0, 0, false), 0, 0));
}

#[test]
fn p12_unheard_channel_with_number_255() {
    let (state, answers, _) = take_all(&[&[5, 0, 2, 255, 1]]);
    let whole = Kind::Delivered { channel: 2, length: 1 };
    assert_eq!(answers, [answer(whole, 0, 255, false)]);
    assert_eq!((state.channels[2].missing, state.channels[2].repeats), (255, 0));
}

#[test]
fn channel_31_and_32_transfer_5_and_4() {
    assert_eq!(take_all(&[&[5, 0, 31, 0, 1]]).1, [delivered(31, 1)]);
    assert_eq!(take_all(&[&[5, 0, 32, 0, 1]]).1, [refused(9)]);
    let mut out = [0; 8];
    let mut state = Sender::fresh(LIMIT, 32, 5);
    assert_eq!(send(&mut state, 32, &[1, 2], &mut out), (9, 0));
    assert_eq!(send(&mut state, 31, &[1, 2], &mut out), (0, 5));
    assert_eq!(out[..5], [6, 0, 31, 0, 1]);
    let mut state = Sender::fresh(LIMIT, 32, 4);
    assert_eq!(send(&mut state, 31, &[1, 2], &mut out), (23, 0));
}

#[test]
fn message_example() {
    let sent = [0x7E, 0x01, 0x06, 0x00, 0x02, 0x00, 0x7D, 0x5E, 0x01, 0x7E];
    let transfer = [0x06, 0x00, 0x02, 0x00, 0x7E, 0x01];
    let mut out = [0; 10];
    assert_eq!(write_message(1, &transfer, &mut out), (0, 10));
    assert_eq!(out, sent);
    assert_eq!(write_message(1, &transfer, &mut out[..9]), (28, 0));
    let mut reader = MessageReader::fresh();
    let mut buffer = [0; 7];
    let events: Vec<Event> =
        sent.iter().map(|&byte| read_byte(&mut reader, &mut buffer, byte)).collect();
    assert_eq!(events[..9], [Event::Nothing; 9]);
    assert_eq!(events[9], Event::Message { start: 1, end: 7 });
    assert_eq!(buffer[1..], transfer);
}

#[test]
fn listing_example() {
    let mut input = vec![0x7E, 0x01, 0x06, 0x00, 0x02, 0x00, 0x7D, 0x5E, 0x01, 0x7E];
    let again = input.clone();
    input.extend([0x7E, 0x00, 0x7E, 0x7E, 0x00, 0x80, 0x00, 0x7E]);
    input.extend(again);
    let due = "event channel bytes number gap dropped\n\
               cargo 2 2 0 0 0\n\
               query - 0 0 0 0\n\
               notice - 128 0 0 0\n\
               refused 2 0 20 0 0\n";
    let mut output = Vec::new();
    list(&input[..], &mut output).unwrap();
    assert_eq!(String::from_utf8(output).unwrap(), due.replace(' ', "\t"));
}

#[test]
fn header_both_ways() {
    let fields = Fields { length: 10, channel: 3, number: 1 };
    assert_eq!(read_header(&[0x0A, 0x80, 3, 1]), Reading::Continuation(fields));
    assert_eq!(read_header(&[0x0A, 0x00, 3, 1, 9]), Reading::First(fields));
    assert_eq!(read_header(&[0x0A, 0x00, 3]), Reading::UnderFourBytes);
    assert_eq!(read_header(&[0x00, 0x80, 3, 1]), Reading::Null);
    assert_eq!(write_header(true, 10, 3, 1), [0x0A, 0x80, 3, 1]);
    assert_eq!(write_header(false, 32_766, 255, 255), [0xFE, 0x7F, 255, 255]);
}

#[test]
fn halves_of_two_cargoes_do_not_join() {
    // Two cargoes of ten bytes; the second one's first transfer is lost.
    let (state, answers, _) = take_all(&[&[14, 0, 3, 0, 1, 2], &[12, 0x80, 3, 3, 9, 9]]);
    assert_eq!(answers[1], answer(Kind::Refused, 21, 2, true));
    assert_eq!(state.under_way, None);
    assert_eq!((state.channels[3].missing, state.channels[3].expected), (2, 4));
}

#[test]
fn each_channel_counts_for_itself() {
    let (state, answers, _) =
        take_all(&[&[5, 0, 1, 0, 1], &[5, 0, 2, 0, 1], &[5, 0, 1, 1, 1], &[5, 0, 2, 1, 1]]);
    assert!(answers.iter().all(|answer| answer.number == 0 && answer.gap == 0));
    let mut row = [7; 65];
    assert_eq!(copy_counts(&state, &mut row), 0);
    assert_eq!(row[..64], [0; 64]);
    assert_eq!(row[64], 7);
}

#[test]
fn a_continuation_names_what_remains() {
    let first: &[u8] = &[14, 0, 3, 0, 1, 2, 3, 4];
    let (_, answers, _) = take_all(&[first, &[14, 0x80, 3, 1, 5, 6]]);
    assert_eq!(answers[1], answer(Kind::Refused, 21, 0, true));
    let (_, answers, _) = take_all(&[first, &[10, 0x80, 3, 1, 5, 6, 7, 8, 9, 10, 0, 0]]);
    assert_eq!(answers[1], delivered(3, 10));
}
