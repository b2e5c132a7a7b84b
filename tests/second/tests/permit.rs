//! Writing only with permission (02, request 14): its sentences as cases worked out by hand.

use second::message::{read_byte, Event, MessageReader};
use second::permit::*;
use second::sender::{Outgoing, Sender};

type Write = fn(&mut Sender, &mut Permit, usize, &[u8], u64, u32, &mut [u8]) -> (u8, usize);

const BOTH: [Write; 2] = [send, send_message];
const TEN: &[u8; 10] = b"ABCDEFGHIJ";
const CHANNEL: usize = 3;
const CAME: u64 = 1_000;
const TIMEOUT: u32 = 100;

/// A host whose cargo of ten bytes goes out as in P1 of 01, with L of 14, 10 and 6.
#[derive(Clone, Debug, PartialEq)]
struct Host {
    sender: Sender,
    permit: Permit,
    out: Vec<u8>,
}

impl Host {
    fn with(permit: Permit) -> Host {
        Host { sender: Sender::fresh(64, 4, 8), permit, out: vec![0xEE; 20] }
    }

    fn write(&mut self, write: Write, cargo: &[u8], clock: u64, timeout: u32) -> (u8, usize) {
        let Host { sender, permit, out } = self;
        write(sender, permit, CHANNEL, cargo, clock, timeout, out)
    }

    /// The number of a refused call, which must leave everything as it was.
    fn refused(&mut self, write: Write, cargo: &[u8], clock: u64, timeout: u32) -> u8 {
        let before = self.clone();
        let (number, written) = self.write(write, cargo, clock, timeout);
        assert_eq!((&*self, written), (&before, 0));
        assert_ne!(number, 0);
        number
    }

    /// What a permitted call writes; the permit is gone and the output behind it stays.
    fn wrote(&mut self, write: Write, cargo: &[u8], clock: u64, timeout: u32) -> Vec<u8> {
        self.out.fill(0xEE);
        let (number, written) = self.write(write, cargo, clock, timeout);
        assert_eq!((number, self.permit), (0, Permit::None));
        assert!(self.out[written..].iter().all(|&byte| byte == 0xEE));
        self.out[..written].to_vec()
    }
}

fn held(room: u16) -> Permit {
    Permit::Held { room, came: CAME }
}

#[test]
fn without_a_permit_nothing_is_written() {
    for write in BOTH {
        let mut host = Host::with(Permit::None);
        assert_eq!(host.refused(write, TEN, CAME, TIMEOUT), 43);
        assert_eq!(host.refused(write, TEN, 0, 0), 43);
        notified(&mut host.permit, 14, CAME);
        host.wrote(write, TEN, CAME, TIMEOUT);
    }
}

#[test]
fn room_for_the_length_of_the_header() {
    let transfers: [(u16, &[u8]); 3] =
        [(14, b"\x0E\x00\x03\x00ABCD"), (10, b"\x0A\x80\x03\x01EFGH"), (6, b"\x06\x80\x03\x02IJ")];
    for (write, front, behind) in [(BOTH[0], &b""[..], &b""[..]), (BOTH[1], b"\x7E\x01", b"\x7E")] {
        let mut host = Host::with(Permit::None);
        for (length, transfer) in transfers {
            for room in [0, 4, length - 1] {
                notified(&mut host.permit, room, CAME);
                assert_eq!(host.refused(write, TEN, CAME, TIMEOUT), 44);
            }
            notified(&mut host.permit, length, CAME);
            let wrote = host.wrote(write, TEN, CAME, TIMEOUT);
            assert_eq!(wrote, [front, transfer, behind].concat());
        }
        assert_eq!(host.sender.under_way, None);
        // Room for the transfer's eight bytes, but not for its L.
        notified(&mut host.permit, 8, CAME);
        assert_eq!(host.refused(write, TEN, CAME, TIMEOUT), 44);
    }
}

#[test]
fn both_forms_take_turns() {
    let mut host = Host::with(held(14));
    assert_eq!(host.wrote(send, TEN, CAME, TIMEOUT), b"\x0E\x00\x03\x00ABCD");
    notified(&mut host.permit, 10, CAME);
    let message = b"\x7E\x01\x0A\x80\x03\x01EFGH\x7E";
    assert_eq!(host.wrote(send_message, TEN, CAME, TIMEOUT), message);
    notified(&mut host.permit, 6, CAME);
    assert_eq!(host.wrote(send, TEN, CAME, TIMEOUT), b"\x06\x80\x03\x02IJ");
}

#[test]
fn a_large_cargo_in_small_transfers() {
    let cargo = vec![0x55; 32_762];
    let mut host = Host::with(held(32_765));
    host.sender = Sender::fresh(32_766, 4, 5);
    assert_eq!(host.refused(send, &cargo, CAME, TIMEOUT), 44);
    notified(&mut host.permit, 32_766, CAME);
    assert_eq!(host.wrote(send, &cargo, CAME, TIMEOUT), [0xFE, 0x7F, 3, 0, 0x55]);
    // The mark of a continuation is no part of L.
    for room in [5, 32_764] {
        notified(&mut host.permit, room, CAME);
        assert_eq!(host.refused(send, &cargo, CAME, TIMEOUT), 44);
    }
    notified(&mut host.permit, 32_765, CAME);
    assert_eq!(host.wrote(send, &cargo, CAME, TIMEOUT), [0xFD, 0xFF, 3, 1, 0x55]);
    notified(&mut host.permit, 65_535, CAME);
    assert_eq!(host.wrote(send, &cargo, CAME, TIMEOUT), [0xFC, 0xFF, 3, 2, 0x55]);
}

/// A permit that came then has this answer at this clock, for the transfer and for the message.
fn judged_at(came: u64, clock: u64, timeout: u32, number: u8) {
    for write in BOTH {
        let mut host = Host::with(Permit::Held { room: 14, came });
        if number == 0 {
            host.wrote(write, TEN, clock, timeout);
        } else {
            let told = host.refused(write, TEN, clock, timeout);
            assert_eq!(told, number, "{came} {clock} {timeout}");
        }
    }
}

#[test]
fn the_time_that_a_permit_is_good() {
    for (came, clock, timeout, number) in [
        (1_000, 1_000, 100, 0),
        (1_000, 1_100, 100, 0),
        (1_000, 1_101, 100, 45),
        (1_000, 999, 100, 45),
        (1_000, 0, u32::MAX, 45),
        (1_000, 1_000, 0, 0),
        (1_000, 1_001, 0, 45),
        (1_000, 999, 0, 45),
        (0, 0, 0, 0),
    ] {
        judged_at(came, clock, timeout, number);
    }
}

#[test]
fn times_at_the_ends_of_32_and_64_bits() {
    const END: u64 = u64::MAX;
    const LONGEST: u64 = u32::MAX as u64;
    for (came, clock, timeout, number) in [
        (0, LONGEST, u32::MAX, 0),
        (0, LONGEST + 1, u32::MAX, 45),
        // The last 32 bits of what has passed are 3.
        (1_000, 1_000 + LONGEST + 4, 10, 45),
        (0, END, u32::MAX, 45),
        // The end of the permit would be past the end of 64 bits.
        (END - 5, END, u32::MAX, 0),
        (END - 5, END - 6, u32::MAX, 45),
        (END - 5, 0, u32::MAX, 45),
        (END - 5, 1, 100, 45),
        (END, END, 0, 0),
        (END, END - 1, u32::MAX, 45),
        (END, 0, 1, 45),
        (END - LONGEST, END, u32::MAX, 0),
        (END - LONGEST - 1, END, u32::MAX, 45),
        (END - LONGEST - 1, END - 1, u32::MAX, 0),
    ] {
        judged_at(came, clock, timeout, number);
    }
}

#[test]
fn an_ended_permit_is_judged_anew() {
    for write in BOTH {
        let mut host = Host::with(held(14));
        assert_eq!(host.refused(write, TEN, 999, TIMEOUT), 45);
        assert_eq!(host.refused(write, TEN, 1_101, TIMEOUT), 45);
        assert_eq!(host.refused(write, TEN, 1_050, 49), 45);
        host.wrote(write, TEN, 1_050, 50);
    }
}

#[test]
fn a_newer_permit_replaces_the_older() {
    for write in BOTH {
        let mut host = Host::with(held(100));
        notified(&mut host.permit, 13, CAME);
        assert_eq!(host.refused(write, TEN, CAME, TIMEOUT), 44);
        notified(&mut host.permit, 0, CAME);
        assert_eq!(host.refused(write, TEN, CAME, TIMEOUT), 44);
        notified(&mut host.permit, 14, 500);
        assert_eq!(host.refused(write, TEN, CAME, TIMEOUT), 45);
        notified(&mut host.permit, 14, 1_200);
        assert_eq!(host.refused(write, TEN, CAME, TIMEOUT), 45);
        host.wrote(write, TEN, 1_300, TIMEOUT);
    }
}

#[test]
fn a_write_uses_the_permit_up() {
    for write in BOTH {
        let mut host = Host::with(held(65_535));
        for _ in 0..3 {
            host.wrote(write, TEN, CAME, TIMEOUT);
            assert_eq!(host.refused(write, TEN, CAME, TIMEOUT), 43);
            // Two at once are worth one.
            notified(&mut host.permit, 65_535, CAME);
            notified(&mut host.permit, 65_535, CAME);
        }
        assert_eq!((host.sender.under_way, host.sender.numbers[CHANNEL]), (None, 3));
    }
}

#[test]
fn order_of_refusals() {
    // Each step removes the fault that was answered; the next transfer has L 10 and eight bytes.
    let steps: [(usize, usize, usize, usize, Permit, u64, u8); 12] = [
        (4, 9, 0, 0, Permit::None, 0, 23),
        (20, 9, 0, 0, Permit::None, 0, 9),
        (20, 0, 0, 0, Permit::None, 0, 26),
        (20, 0, 17, 0, Permit::None, 0, 27),
        (20, 0, 10, 0, Permit::None, 0, 29),
        (20, 1, 9, 0, Permit::None, 0, 29),
        (20, 1, 10, 7, Permit::None, 0, 28),
        (20, 1, 10, 8, Permit::None, 0, 43),
        (20, 1, 10, 8, held(9), 999, 45),
        (20, 1, 10, 8, held(9), 1_101, 45),
        (20, 1, 10, 8, held(9), 1_100, 44),
        (20, 1, 10, 8, held(10), 1_100, 0),
    ];
    // The message takes three bytes more.
    for (write, more) in BOTH.into_iter().zip([0, 3]) {
        for (limit, channel, length, room, permit, clock, due) in steps {
            let under_way = Some(Outgoing { channel: 1, total: 10, sent: 4 });
            let mut sender = Sender { under_way, ..Sender::fresh(limit, 2, 8) };
            let (cargo, mut out) = (vec![0x41; length], vec![0xEE; room + more]);
            let before = (sender.clone(), permit, out.clone());
            let mut after = permit;
            let (number, written) =
                write(&mut sender, &mut after, channel, &cargo, clock, TIMEOUT, &mut out);
            assert_eq!((number, written), (due, if due == 0 { 8 + more } else { 0 }));
            assert_eq!(due != 0, (sender, after, out) == before);
        }
    }
}

#[test]
fn the_senders_refusals_come_first_with_a_good_permit_too() {
    for write in BOTH {
        let mut host = Host::with(held(65_535));
        assert_eq!(host.refused(write, &[], CAME, TIMEOUT), 26);
        assert_eq!(host.refused(write, &[0; 61], CAME, TIMEOUT), 27);
        host.out.truncate(7);
        assert_eq!(host.refused(write, TEN, CAME, TIMEOUT), 28);
        host.sender.under_way = Some(Outgoing { channel: 0, total: 10, sent: 4 });
        assert_eq!(host.refused(write, TEN, CAME, TIMEOUT), 29);
        host.sender.count = 3;
        assert_eq!(host.refused(write, TEN, CAME, TIMEOUT), 9);
        host.sender.largest_transfer = 4;
        assert_eq!(host.refused(write, TEN, CAME, TIMEOUT), 23);
    }
}

/// Refuses an output of each shorter length, then writes into one of this length.
fn written_into_exactly(mut host: Host, cargo: &[u8], length: usize) -> Vec<u8> {
    for short in 0..length {
        host.out = vec![0xEE; short];
        assert_eq!(host.refused(send_message, cargo, CAME, TIMEOUT), 28);
    }
    host.out = vec![0xEE; length];
    let wrote = host.wrote(send_message, cargo, CAME, TIMEOUT);
    assert_eq!(wrote.len(), length);
    wrote
}

#[test]
fn a_message_with_escapes() {
    let mut host = Host::with(held(6));
    // 01's example, on channel 3: six bytes of transfer, ten of message.
    let message = [0x7E, 1, 6, 0, 3, 0, 0x7D, 0x5E, 1, 0x7E];
    assert_eq!(written_into_exactly(host.clone(), &[0x7E, 1], 10), message);
    // L 126 and number 125, so that the header is escaped too.
    host.permit = held(126);
    host.sender = Sender::fresh(200, 4, 6);
    host.sender.numbers[CHANNEL] = 0x7D;
    let message = [0x7E, 1, 0x7D, 0x5E, 0, 3, 0x7D, 0x5D, 0x11, 0x11, 0x7E];
    assert_eq!(written_into_exactly(host, &[0x11; 122], 11), message);
}

#[test]
fn the_longest_message_of_a_transfer() {
    // L 7E7E (hex) and number 7E: of eight bytes only the channel is none to escape.
    let mut host = Host::with(held(0x7E7E));
    host.sender = Sender::fresh(32_766, 4, 8);
    host.sender.numbers[CHANNEL] = 0x7E;
    let cargo = [0x7E; 0x7E7E - 4];
    let pair = [0x7D, 0x5E];
    let message =
        [&[0x7E, 1][..], &pair, &pair, &[3], &pair, &pair, &pair, &pair, &pair, &[0x7E]].concat();
    assert_eq!(written_into_exactly(host.clone(), &cargo, 2 * 8 + 2), message);
    host.out = vec![0xEE; 2 * 8 + 3];
    assert_eq!(host.wrote(send_message, &cargo, CAME, TIMEOUT), message);
}

/// The rooms that a stream announces, read by this program's own reader.
fn rooms(stream: &[u8]) -> Vec<u16> {
    let (mut reader, mut buffer) = (MessageReader::fresh(), [0; 8]);
    let room = |&byte| match read_byte(&mut reader, &mut buffer, byte) {
        Event::Notice { room } => Some(room),
        _ => None,
    };
    stream.iter().filter_map(room).collect()
}

#[test]
fn the_room_is_read_low_byte_first() {
    let stream = [0x7E, 0, 0x0D, 1, 0x7E, 0x7E, 0, 0x7E, 0x7E, 0, 0x7D, 0x5E, 0, 0x7E];
    let rooms = rooms(&stream);
    assert_eq!(rooms, [269, 126]);
    for (room, fitting) in rooms.into_iter().zip([265, 122]) {
        let mut host = Host::with(Permit::None);
        host.sender.limit = 1_000;
        notified(&mut host.permit, room, CAME);
        assert_eq!(host.permit, held(room));
        assert_eq!(host.refused(send, &vec![1; fitting + 1], CAME, TIMEOUT), 44);
        host.wrote(send, &vec![1; fitting], CAME, TIMEOUT);
    }
}
