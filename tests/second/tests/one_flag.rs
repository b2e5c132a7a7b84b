//! One flag between messages (02, request 3).

use second::gen;
use second::header::HEADER_BYTES;
use second::listing::list;
use second::message::*;
use second::play::{check, script, Ends, OwnEnds, Script};
use second::receiver::{delivered_part, Kind};
use second::rng::Rng;
use second::told::{told, What, What::*};
use second::wrong::hearer;
use std::slice::from_ref;

const MESSAGE_BUFFER: usize = 100;
const OPEN_AND_EMPTY: MessageReader = MessageReader { phase: Phase::Inside, held: 0 };

/// What is told from this state on, wherever it closes.
fn told_on(
    read_byte: ReadByte,
    reader: &mut MessageReader,
    buffer: &mut [u8],
    stream: &[u8],
) -> Vec<What> {
    told(read_byte, reader, buffer, stream).into_iter().map(|one| one.what).collect()
}

fn told_by(name: &str, stream: &[u8]) -> Vec<What> {
    let read_byte = hearer(name).unwrap().read_byte;
    told_on(read_byte, &mut MessageReader::fresh(), &mut [0; MESSAGE_BUFFER], stream)
}

#[test]
fn examples() {
    let told = |stream: &[u8]| told_by("right", stream);
    assert_eq!(told(&[0x7E, 0x00, 0x7E, 0x00, 0x7E]), [Query, Query]);
    assert_eq!(told(&[0x7E, 0x7D, 0x7E, 0x00, 0x7E]), [Refused(31), Query]);
    // 31 is a 0x7D that turns nothing, and the second one here is turned.
    assert_eq!(told(&[0x7E, 0x01, 0x7D, 0x7D, 0x7E]), [Transfer(vec![0x5D])]);
    let three = [Refused(30), Refused(33), Transfer(vec![])];
    assert_eq!(told(&[0x7E, 0x02, 0x7E, 0x00, 0x01, 0x7E, 0x01, 0x7E]), three);
    assert_eq!(told(&[0x41, 0x7D, 0x7E, 0x00, 0x7E]), [Query]);
    assert_eq!(told(&[0x7E, 0x7E, 0x7E, 0x7E]), []);
    assert_eq!(told(&[0x7E, 0x00, 0x7E, 0x00]), [Query]);
}

#[test]
fn the_listing_example_with_single_flags() {
    let transfer = [0x01, 0x06, 0x00, 0x02, 0x00, 0x7D, 0x5E, 0x01];
    let bodies: [&[u8]; 6] = [&[], &transfer, &[0x00], &[0x00, 0x80, 0x00], &transfer, &[]];
    let due = "event channel bytes number gap dropped\n\
               cargo 2 2 0 0 0\n\
               query - 0 0 0 0\n\
               notice - 128 0 0 0\n\
               refused 2 0 20 0 0\n";
    let mut output = Vec::new();
    list(&bodies.join(&FLAG)[..], &mut output).unwrap();
    assert_eq!(String::from_utf8(output).unwrap(), due.replace(' ', "\t"));
}

/// A message as the writer writes it, and what it tells.
fn written_message(rng: &mut Rng) -> (Vec<u8>, What) {
    let payload = gen::cargo(rng, 60);
    let room = rng.next_u64() as u16;
    let mut out = vec![0; 3 + 2 * payload.len().max(2)];
    let (told, (number, written)) = match rng.below(4) {
        0 => (Query, write_query(&mut out)),
        1 => (Notice { room }, write_notice(room, &mut out)),
        _ => (Transfer(payload.clone()), write_message(1, &payload, &mut out)),
    };
    assert_eq!(number, 0);
    out.truncate(written);
    (out, told)
}

/// A written message, or one that is refused, with both flags too.
fn any_message(rng: &mut Rng) -> (Vec<u8>, What) {
    if rng.percent(75) {
        return written_message(rng);
    }
    let bodies: [(&[u8], u8); 4] =
        [(&[2], 30), (&[1, ESCAPE], 31), (&[1; MESSAGE_BUFFER + 1], 32), (&[0, 7], 33)];
    let (body, number) = rng.pick(&bodies);
    ([&[FLAG], body, &[FLAG]].concat(), Refused(number))
}

/// Each message but the first without the flag that opens it.
fn with_single_flags(messages: &[Vec<u8>]) -> Vec<u8> {
    let rest = messages.iter().flat_map(|message| &message[1..]);
    [FLAG].iter().chain(rest).copied().collect()
}

#[test]
fn messages_that_share_a_flag_are_read_back() {
    let mut rng = Rng::new(50);
    for _ in 0..3_000 {
        let count = rng.between(1, 12);
        let (messages, due): (Vec<_>, Vec<_>) = (0..count).map(|_| any_message(&mut rng)).unzip();
        assert_eq!(told_by("right", &with_single_flags(&messages)), due);
        assert_eq!(told_by("right", &messages.concat()), due);
    }
}

#[test]
fn the_reader_of_before_loses_every_second_message() {
    let mut rng = Rng::new(51);
    for _ in 0..3_000 {
        let count = rng.between(1, 12);
        let (messages, due): (Vec<_>, Vec<_>) = (0..count).map(|_| any_message(&mut rng)).unzip();
        let every_second: Vec<What> = due.iter().step_by(2).cloned().collect();
        assert_eq!(told_by("closes-only", &with_single_flags(&messages)), every_second);
        assert_eq!(told_by("closes-only", &messages.concat()), due);
    }
}

#[test]
fn what_a_flag_closes_leaves_the_reader_open_and_empty() {
    // In a buffer of three bytes, with those that it then holds.
    let bodies: [(&[u8], What, &[u8]); 8] = [
        (&[0x02, 0x07], Refused(30), &[0x02, 0x07]),
        (&[0x7D], Refused(31), &[]),
        (&[0x01, 0x07, 0x7D], Refused(31), &[0x01, 0x07]),
        (&[0x01, 0x07, 0x08, 0x09, 0x7D], Refused(32), &[0x01, 0x07, 0x08]),
        (&[0x00, 0x07], Refused(33), &[0x00, 0x07]),
        (&[0x00], Query, &[0x00]),
        (&[0x00, 0x07, 0x01], Notice { room: 0x107 }, &[0x00, 0x07, 0x01]),
        (&[0x01, 0x7D, 0x5E], Transfer(vec![0x7E]), &[0x01, 0x7E]),
    ];
    for (first, first_told, _) in &bodies {
        for (second, second_told, kept) in &bodies {
            let (mut reader, mut buffer) = (OPEN_AND_EMPTY, [0xEE; 3]);
            let mut told = |body: &[u8]| {
                let told = told_on(read_byte, &mut reader, &mut buffer, &[body, &[FLAG]].concat());
                assert_eq!(reader, OPEN_AND_EMPTY, "{body:02X?}");
                told
            };
            assert_eq!(told(first), from_ref(first_told));
            assert_eq!(told(second), from_ref(second_told), "behind {first:02X?}");
            assert_eq!(told(&[]), []);
            assert_eq!(&buffer[..kept.len()], *kept);
        }
    }
}

#[test]
fn before_the_first_flag_nothing_changes() {
    let mut rng = Rng::new(52);
    for _ in 0..2_000 {
        let room = rng.between(1, 6);
        // Also states made by hand, with bytes held outside.
        let outside = MessageReader { phase: Phase::Outside, held: rng.below(room + 1) };
        let (mut reader, mut buffer) = (outside, rng.bytes(room));
        let before = buffer.clone();
        for byte in noise(&mut rng) {
            assert_eq!(read_byte(&mut reader, &mut buffer, byte), Event::Nothing);
            assert_eq!((reader, &buffer), (outside, &before));
        }
        assert_eq!(read_byte(&mut reader, &mut buffer, FLAG), Event::Nothing);
        assert_eq!((reader, &buffer), (OPEN_AND_EMPTY, &before));
        assert_eq!(told_on(read_byte, &mut reader, &mut buffer, &[0x00, FLAG]), [Query]);
    }
}

/// Any bytes without a flag, some of them 0x7D.
fn noise(rng: &mut Rng) -> Vec<u8> {
    let mut noise = gen::cargo(rng, 20);
    noise.retain(|&byte| byte != FLAG);
    noise
}

/// The ends of a link over a UART: noise, then arriving transfers as messages, and between them
/// messages that hand nothing to the receiver.
struct UartEnds {
    hearer: Hearer,
    /// How many flags may stand behind the noise and behind each message.
    flags: &'static [usize],
    rng: Rng,
    ends: OwnEnds,
    cargo_buffer: Vec<u8>,
    reader: MessageReader,
    message_buffer: Vec<u8>,
    between_told: Vec<LinkEvent>,
    between_due: Vec<LinkEvent>,
}

impl UartEnds {
    fn fresh(name: &str, script: &Script, flags: &'static [usize], seed: u64) -> UartEnds {
        let mut rng = Rng::new(seed);
        let message_room = 1 + script.largest_transfer + rng.pick(&[0, 0, 7]);
        let mut ends = UartEnds {
            hearer: hearer(name).unwrap(),
            flags,
            rng,
            ends: OwnEnds::fresh(script),
            cargo_buffer: vec![0; script.limit - HEADER_BYTES],
            reader: MessageReader::fresh(),
            message_buffer: vec![0; message_room],
            between_told: Vec::new(),
            between_due: Vec::new(),
        };
        let noise = noise(&mut ends.rng);
        ends.hear(&noise);
        ends
    }

    /// Hears these bytes and the flags behind them, and gives a delivered cargo.
    fn hear(&mut self, body: &[u8]) -> Option<(usize, Vec<u8>)> {
        let flags = vec![FLAG; self.rng.pick(self.flags)];
        let mut delivered = None;
        for &byte in body.iter().chain(&flags) {
            let event = read_byte_for(
                self.hearer,
                &mut self.ends.receiver,
                &mut self.cargo_buffer,
                &mut self.reader,
                &mut self.message_buffer,
                byte,
            );
            let LinkEvent::Transfer(answer) = event else {
                self.between_told.extend((event != LinkEvent::Nothing).then_some(event));
                continue;
            };
            if let Kind::Delivered { channel, .. } = answer.kind {
                let cargo = delivered_part(&answer, &self.cargo_buffer);
                assert_eq!(delivered.replace((channel, cargo.to_vec())), None);
            }
        }
        delivered
    }
}

impl Ends for UartEnds {
    fn send(&mut self, channel: usize, cargo: &[u8]) -> Result<Vec<u8>, u8> {
        self.ends.send(channel, cargo)
    }

    fn abandon(&mut self) -> u8 {
        self.ends.abandon()
    }

    fn take(&mut self, transfer: &[u8]) -> Option<(usize, Vec<u8>)> {
        for _ in 0..self.rng.pick(&[0, 0, 0, 1, 3]) {
            let (body, due) = message_between(&mut self.rng, self.message_buffer.len());
            assert_eq!(self.hear(&body), None);
            self.between_due.push(due);
        }
        self.hear(&body(1, transfer))
    }

    fn counts(&mut self) -> (Vec<u32>, Vec<u32>) {
        self.ends.counts()
    }
}

/// An ID and payload as they stand between two flags.
fn body(id: u8, payload: &[u8]) -> Vec<u8> {
    let escaped = |&byte: &u8| match byte {
        FLAG | ESCAPE => vec![ESCAPE, byte ^ ESCAPE_MASK],
        _ => vec![byte],
    };
    [&[id], payload].concat().iter().flat_map(escaped).collect()
}

/// The body of a message that hands nothing to the receiver, and what it tells. Five bytes fit into
/// the message buffer, since a transfer may have as many and the ID stands before it.
fn message_between(rng: &mut Rng, room: usize) -> (Vec<u8>, LinkEvent) {
    let payload = [rng.byte(), FLAG, rng.byte(), ESCAPE];
    let (notice, unknown, any) = (rng.next_u64() as u16, rng.between(2, 255) as u8, rng.byte());
    let cut = |body: &[u8]| [body, &[ESCAPE]].concat();
    match rng.below(6) {
        0 => (body(0, &[]), LinkEvent::Query),
        1 => (body(0, &notice.to_le_bytes()), LinkEvent::Notice { room: notice }),
        2 => (body(unknown, &payload[..rng.below(5)]), LinkEvent::Refused(30)),
        3 => (cut(rng.pick(&[&[][..], &body(any, &payload)])), LinkEvent::Refused(31)),
        4 => (body(0, &payload[..rng.pick(&[1, 3, 4])]), LinkEvent::Refused(33)),
        _ => {
            let long = body(any % 3, &rng.bytes(room));
            (if rng.percent(50) { cut(&long) } else { long }, LinkEvent::Refused(32))
        }
    }
}

#[test]
fn demand_three_holds_over_a_uart() {
    let mut numbers = [0; 256];
    for seed in 0..150 {
        let script = script(seed);
        for flags in [&[1][..], &[1, 1, 2, 5], &[2, 3]] {
            let mut ends = UartEnds::fresh("right", &script, flags, seed);
            assert_eq!(check(&script, &mut ends), Ok(()), "seed {seed}, flags {flags:?}");
            assert_eq!(ends.between_told, ends.between_due, "seed {seed}, flags {flags:?}");
            for event in ends.between_told {
                if let LinkEvent::Refused(number) = event {
                    numbers[usize::from(number)] += 1;
                }
            }
        }
    }
    println!("30 to 33 between transfers: {:?}", &numbers[30..34]);
    assert!(numbers[30..34].iter().all(|&count| count > 1_000));
}

#[test]
fn demand_three_above_the_reader_of_before_needs_two_flags() {
    let holds = |seed: u64, flags: &'static [usize]| {
        let script = script(seed);
        let mut ends = UartEnds::fresh("closes-only", &script, flags, seed);
        check(&script, &mut ends).is_ok() && ends.between_told == ends.between_due
    };
    assert!((0..50).all(|seed| holds(seed, &[2, 3])));
    let broken = (0..50).filter(|&seed| !holds(seed, &[1])).count();
    assert!(broken > 45, "{broken}");
}
