//! The captures that the class reads: what the hub sends of an evening and what comes through.

use crate::header::LARGEST_LENGTH;
use crate::message::{write_message, write_notice, write_query, FLAG, SHTP_ID};
use crate::odometer::total_cargo;
use crate::play::{drive, Ending, Ends, Fate, OwnEnds, Script, Shipment};
use crate::receiver::MOST_CHANNELS;
use crate::totals::TOTALS_CHANNEL;

/// The hub's temperature, in tenths of a degree, is two bytes on this channel.
const TEMPERATURE_CHANNEL: usize = 4;
/// Three cargo bytes a transfer: a total takes two of them, a temperature one.
const LARGEST_TRANSFER: usize = 7;

/// The place of the third total's first half among the second hub's messages.
const THIRD_TOTAL: usize = 4;

/// What the line carries before the second hub's first flag.
const POWER_UP_NOISE: [u8; 2] = [0x00, 0xFF];

const ARRIVES: Fate = Fate::Arrives { surplus: 0 };
const TWICE: Fate = Fate::Arrives { surplus: 1 };

/// The last total on the road, and the one in the yard, 1,161 turns on: between them the high half
/// steps from 0x2F to 0x30.
pub const ON_THE_ROAD: u32 = 0x002F_FC87;
pub const IN_THE_YARD: u32 = 0x0030_0110;

/// First half of the older total, second half of the newer one.
pub fn splice() -> Script {
    script(vec![
        total(3_142_500, [ARRIVES; 2]),
        total(3_143_700, [ARRIVES; 2]),
        total(ON_THE_ROAD, [ARRIVES, Fate::Lost]),
        total(IN_THE_YARD, [Fate::Lost, ARRIVES]),
        total(IN_THE_YARD, [ARRIVES; 2]),
        total(IN_THE_YARD, [ARRIVES; 2]),
    ])
}

/// Temperatures and totals by turns; nothing is lost.
pub fn two_channels() -> Script {
    let totals = [3_136_500, 3_137_700, 3_138_900, 3_140_100];
    let temperatures = [215, 228, 236, 241];
    let both = temperatures.into_iter().zip(totals);
    script(both.flat_map(|(one, other)| [temperature(one), total(other, [ARRIVES; 2])]).collect())
}

/// In the yard: the second half of the third cargo comes twice.
pub fn one_repeat() -> Script {
    script(vec![
        total(IN_THE_YARD, [ARRIVES; 2]),
        total(IN_THE_YARD, [ARRIVES; 2]),
        total(IN_THE_YARD, [ARRIVES, TWICE]),
        total(IN_THE_YARD, [ARRIVES; 2]),
    ])
}

/// In the yard: behind the third cargo 255 transfers are lost, 127 cargoes and a half.
pub fn losses_of_255() -> Script {
    let mut shipments = vec![total(IN_THE_YARD, [ARRIVES; 2]); 3];
    shipments.extend(vec![total(IN_THE_YARD, [Fate::Lost; 2]); 127]);
    shipments.push(total(IN_THE_YARD, [Fate::Lost, ARRIVES]));
    shipments.push(total(IN_THE_YARD, [ARRIVES; 2]));
    script(shipments)
}

/// Also 255 losses, but from the middle of a cargo to the front of another.
pub fn past_the_bound() -> Script {
    let mut shipments = vec![total(3_143_700, [ARRIVES; 2])];
    shipments.push(total(ON_THE_ROAD, [ARRIVES, Fate::Lost]));
    shipments.extend(vec![total(IN_THE_YARD, [Fate::Lost; 2]); 127]);
    shipments.extend(vec![total(IN_THE_YARD, [ARRIVES; 2]); 2]);
    script(shipments)
}

/// Our second hub: totals alone; nothing is lost.
pub fn second_hub() -> Script {
    let totals = [3_137_700, 3_138_900, 3_140_100, 3_141_300];
    script(totals.map(|one| total(one, [ARRIVES; 2])).to_vec())
}

fn script(shipments: Vec<Shipment>) -> Script {
    Script {
        limit: LARGEST_LENGTH,
        count: MOST_CHANNELS,
        largest_transfer: LARGEST_TRANSFER,
        shipments,
    }
}

fn total(total: u32, fates: [Fate; 2]) -> Shipment {
    shipment(TOTALS_CHANNEL, total_cargo(total), fates.to_vec())
}

fn temperature(tenths: u16) -> Shipment {
    shipment(TEMPERATURE_CHANNEL, tenths.to_le_bytes().to_vec(), vec![ARRIVES])
}

fn shipment(channel: usize, cargo: Vec<u8>, fates: Vec<Fate>) -> Shipment {
    Shipment { channel, cargo, fates, ending: Ending::Finished }
}

/// A line that is listened to: every transfer that comes through is kept as a UART message.
struct Line {
    ends: OwnEnds,
    messages: Vec<Vec<u8>>,
}

impl Ends for Line {
    fn send(&mut self, channel: usize, cargo: &[u8]) -> Result<Vec<u8>, u8> {
        self.ends.send(channel, cargo)
    }

    fn abandon(&mut self) -> u8 {
        self.ends.abandon()
    }

    fn take(&mut self, transfer: &[u8]) -> Option<(usize, Vec<u8>)> {
        self.messages.push(message(|out| write_message(SHTP_ID, transfer, out)));
        self.ends.take(transfer)
    }

    fn counts(&mut self) -> (Vec<u32>, Vec<u32>) {
        self.ends.counts()
    }
}

fn messages(script: &Script) -> Vec<Vec<u8>> {
    let mut line = Line { ends: OwnEnds::fresh(script), messages: Vec::new() };
    drive(script, &mut line).expect("every cargo here can be sent");
    line.messages
}

/// The bytes of a script's transfers, as a capture has them: each message with both flags.
pub fn stream(script: &Script) -> Vec<u8> {
    messages(script).concat()
}

/// The same of our second hub, with one flag between messages, of which a total takes two. Before
/// the third total the line is idle for a byte; before the fourth the hub sends a query.
pub fn single_flags() -> Vec<u8> {
    let mut messages = messages(&second_hub());
    messages.insert(6, message(write_query));
    let mut stream = [&POWER_UP_NOISE[..], &[FLAG]].concat();
    for (place, message) in messages.iter().enumerate() {
        if place == THIRD_TOTAL {
            stream.push(FLAG);
        }
        // The flag before it opens it.
        stream.extend(&message[1..]);
    }
    stream
}

/// The same with one bit turned: the flag that closes the third total's first half reads 0x7F.
pub fn damaged() -> Vec<u8> {
    let mut stream = single_flags();
    let half = &messages(&second_hub())[THIRD_TOTAL][1..];
    let start = stream.windows(half.len()).position(|part| part == half).expect("it was sent");
    stream[start + half.len() - 1] ^= 1;
    stream
}

/// 01's own example, behind "Both sides of each line".
fn example() -> Vec<u8> {
    let cargo = message(|out| write_message(SHTP_ID, &[0x06, 0x00, 0x02, 0x00, 0x7E, 0x01], out));
    [&cargo[..], &message(write_query), &message(|out| write_notice(128, out)), &cargo].concat()
}

fn message(write: impl Fn(&mut [u8]) -> (u8, usize)) -> Vec<u8> {
    let mut out = vec![0; 3 + 2 * LARGEST_TRANSFER];
    let (number, written) = write(&mut out);
    assert_eq!(number, 0, "the message is short enough");
    out.truncate(written);
    out
}

/// Every capture with its file name.
pub fn all() -> [(&'static str, Vec<u8>); 7] {
    [
        ("example.bin", example()),
        ("splice.bin", stream(&splice())),
        ("two-channels.bin", stream(&two_channels())),
        ("255-losses.bin", stream(&losses_of_255())),
        ("past-the-bound.bin", stream(&past_the_bound())),
        ("single-flags.bin", single_flags()),
        ("damaged.bin", damaged()),
    ]
}
