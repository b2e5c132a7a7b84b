//! Demand 3 played: cargoes cut, a wire that loses and repeats, the wire's own account.

use crate::header::{HEADER_BYTES, LARGEST_LENGTH};
use crate::receiver::{copy_counts, delivered_part, take, Kind, Receiver, Take, MOST_CHANNELS};
use crate::rng::Rng;
use crate::sender::{abandon, send, transfers_needed, Sender};

pub const MOST_LOSSES_IN_A_ROW: usize = 254;

#[derive(Clone, Copy, Debug, PartialEq, Eq)]
pub enum Fate {
    Lost,
    /// Arrives once, then `surplus` times more before anything sent later.
    Arrives {
        surplus: usize,
    },
}

#[derive(Clone, Copy, Debug, PartialEq, Eq)]
pub enum Ending {
    Finished,
    Abandoned,
}

/// One cargo, and the fate of each transfer that is sent of it.
#[derive(Clone, Debug, PartialEq, Eq)]
pub struct Shipment {
    pub channel: usize,
    pub cargo: Vec<u8>,
    pub fates: Vec<Fate>,
    pub ending: Ending,
}

#[derive(Clone, Debug, PartialEq, Eq)]
pub struct Script {
    pub limit: usize,
    pub count: usize,
    pub largest_transfer: usize,
    pub shipments: Vec<Shipment>,
}

/// What arrives and what is counted: told by the wire, or by a receiver.
#[derive(Clone, Debug, PartialEq, Eq, Default)]
pub struct Account {
    pub delivered: Vec<(usize, Vec<u8>)>,
    pub missing: Vec<u32>,
    pub repeats: Vec<u32>,
}

/// The two ends of a link, fresh with a script's settings. Another
/// implementation is driven by giving it this form.
pub trait Ends {
    /// The next transfer of a cargo, or the number of the refusal.
    fn send(&mut self, channel: usize, cargo: &[u8]) -> Result<Vec<u8>, u8>;
    fn abandon(&mut self) -> u8;
    /// Channel and bytes of a delivered cargo.
    fn take(&mut self, transfer: &[u8]) -> Option<(usize, Vec<u8>)>;
    /// Missing counts and repeats, one for each channel of the settings.
    fn counts(&mut self) -> (Vec<u32>, Vec<u32>);
}

/// The wire while a script is made: it never loses 255 in a row of one channel.
struct Wire {
    loss_percent: usize,
    repeat_percent: usize,
    burst_percent: usize,
    burst_left: [usize; MOST_CHANNELS],
    lost_in_a_row: [usize; MOST_CHANNELS],
}

impl Wire {
    fn random(rng: &mut Rng) -> Wire {
        Wire {
            loss_percent: rng.pick(&[0, 2, 10, 40, 90]),
            repeat_percent: rng.pick(&[0, 5, 30]),
            burst_percent: rng.pick(&[0, 1, 4]),
            burst_left: [0; MOST_CHANNELS],
            lost_in_a_row: [0; MOST_CHANNELS],
        }
    }

    fn fate(&mut self, rng: &mut Rng, channel: usize) -> Fate {
        if self.burst_left[channel] == 0 && rng.percent(self.burst_percent) {
            let some = rng.between(1, MOST_LOSSES_IN_A_ROW);
            self.burst_left[channel] = rng.pick(&[some, MOST_LOSSES_IN_A_ROW]);
        }
        let in_burst = self.burst_left[channel] > 0;
        self.burst_left[channel] = self.burst_left[channel].saturating_sub(1);
        let may_lose = self.lost_in_a_row[channel] < MOST_LOSSES_IN_A_ROW;
        if may_lose && (in_burst || rng.percent(self.loss_percent)) {
            self.lost_in_a_row[channel] += 1;
            return Fate::Lost;
        }
        self.lost_in_a_row[channel] = 0;
        let surplus =
            if rng.percent(self.repeat_percent) { rng.pick(&[1, 1, 2, 3, 260]) } else { 0 };
        Fate::Arrives { surplus }
    }
}

/// A script made from a seed.
pub fn script(seed: u64) -> Script {
    drawn_script(&mut Rng::new(seed))
}

pub fn drawn_script(rng: &mut Rng) -> Script {
    let some = rng.between(5, 60);
    let limit = rng.pick(&[5, 6, 12, some, 300, 1_000, LARGEST_LENGTH]);
    let largest_transfer = match rng.below(3) {
        0 => 5,
        1 => limit,
        _ => rng.between(5, limit.min(24)),
    };
    let count = rng.pick(&[1, 2, 3, 7, MOST_CHANNELS]);
    let mut wire = Wire::random(rng);
    let mut made = Script { limit, count, largest_transfer, shipments: Vec::new() };
    for _ in 0..rng.between(1, 40) {
        let next = shipment(rng, &mut wire, &made);
        made.shipments.push(next);
    }
    made
}

fn shipment(rng: &mut Rng, wire: &mut Wire, script: &Script) -> Shipment {
    let channel = rng.below(script.count);
    let longest = script.limit - HEADER_BYTES;
    let length = match rng.below(12) {
        0 if script.largest_transfer > 64 || longest < 1_000 => longest,
        1..=3 => rng.between(1, longest.min(500)),
        _ => rng.between(1, longest.min(60)),
    };
    let cargo = rng.bytes(length);
    let needed = transfers_needed(length, script.largest_transfer);
    let (sent, ending) = if rng.percent(25) {
        let at_least = usize::from(needed > 1 && rng.percent(85));
        (rng.between(at_least, needed - 1), Ending::Abandoned)
    } else {
        (needed, Ending::Finished)
    };
    let fates = (0..sent).map(|_| wire.fate(rng, channel)).collect();
    Shipment { channel, cargo, fates, ending }
}

/// The longest row of losses on any one channel.
pub fn longest_row_of_losses(script: &Script) -> usize {
    let mut row = [0; MOST_CHANNELS];
    let mut longest = 0;
    for shipment in &script.shipments {
        for fate in &shipment.fates {
            let row = &mut row[shipment.channel];
            *row = if *fate == Fate::Lost { *row + 1 } else { 0 };
            longest = longest.max(*row);
        }
    }
    longest
}

/// What the wire itself knows, without a look at any header.
pub fn wire_account(script: &Script) -> Account {
    let mut account = Account {
        delivered: Vec::new(),
        missing: vec![0; script.count],
        repeats: vec![0; script.count],
    };
    let mut lost_since_arrival = vec![0u32; script.count];
    for shipment in &script.shipments {
        let channel = shipment.channel;
        for fate in &shipment.fates {
            let Fate::Arrives { surplus } = fate else {
                lost_since_arrival[channel] = lost_since_arrival[channel].wrapping_add(1);
                continue;
            };
            let lost = std::mem::take(&mut lost_since_arrival[channel]);
            account.missing[channel] = account.missing[channel].wrapping_add(lost);
            account.repeats[channel] = account.repeats[channel].wrapping_add(*surplus as u32);
        }
        if shipment.ending == Ending::Finished && !shipment.fates.contains(&Fate::Lost) {
            account.delivered.push((channel, shipment.cargo.clone()));
        }
    }
    account
}

/// Plays a script between two ends and tells what they made of it.
pub fn drive(script: &Script, ends: &mut dyn Ends) -> Result<Account, String> {
    let mut account = Account::default();
    for (place, shipment) in script.shipments.iter().enumerate() {
        for fate in &shipment.fates {
            let transfer = ends
                .send(shipment.channel, &shipment.cargo)
                .map_err(|number| format!("shipment {place}: sending answered {number}"))?;
            let Fate::Arrives { surplus } = *fate else {
                continue;
            };
            for _ in 0..=surplus {
                account.delivered.extend(ends.take(&transfer));
            }
        }
        if shipment.ending == Ending::Abandoned {
            let number = ends.abandon();
            if number != 0 {
                return Err(format!("shipment {place}: abandoning answered {number}"));
            }
        }
    }
    (account.missing, account.repeats) = ends.counts();
    Ok(account)
}

fn delivery(one: Option<&(usize, Vec<u8>)>) -> String {
    one.map_or("none".to_string(), |(channel, cargo)| format!("{cargo:02X?} on channel {channel}"))
}

/// Demand 3 for one script and one pair of ends.
pub fn check(script: &Script, ends: &mut dyn Ends) -> Result<(), String> {
    let expected = wire_account(script);
    let told = drive(script, ends)?;
    if told.delivered != expected.delivered {
        let (told, due) = (&told.delivered, &expected.delivered);
        let same = told.iter().zip(due).take_while(|(told, due)| told == due).count();
        let (first_told, first_due) = (delivery(told.get(same)), delivery(due.get(same)));
        return Err(format!(
            "deliveries differ: {} told, {} due; behind {same} alike {first_told} for {first_due}",
            told.len(),
            due.len()
        ));
    }
    if told.missing != expected.missing {
        return Err(format!("missing {:?}, due {:?}", told.missing, expected.missing));
    }
    if told.repeats != expected.repeats {
        return Err(format!("repeats {:?}, due {:?}", told.repeats, expected.repeats));
    }
    Ok(())
}

/// This program's own sender and receiver, with one output and one cargo buffer.
pub struct OwnEnds {
    pub sender: Sender,
    pub receiver: Receiver,
    take: Take,
    out: Vec<u8>,
    cargo_buffer: Vec<u8>,
}

impl OwnEnds {
    pub fn fresh(script: &Script) -> OwnEnds {
        OwnEnds::hearing_by(take, script)
    }

    pub fn hearing_by(take: Take, script: &Script) -> OwnEnds {
        OwnEnds {
            take,
            sender: Sender::fresh(script.limit, script.count, script.largest_transfer),
            receiver: Receiver::fresh(script.limit, script.count),
            out: vec![0; script.largest_transfer],
            cargo_buffer: vec![0; script.limit - HEADER_BYTES],
        }
    }
}

impl Ends for OwnEnds {
    fn send(&mut self, channel: usize, cargo: &[u8]) -> Result<Vec<u8>, u8> {
        match send(&mut self.sender, channel, cargo, &mut self.out) {
            (0, written) => Ok(self.out[..written].to_vec()),
            (number, _) => Err(number),
        }
    }

    fn abandon(&mut self) -> u8 {
        abandon(&mut self.sender)
    }

    fn take(&mut self, transfer: &[u8]) -> Option<(usize, Vec<u8>)> {
        let answer = (self.take)(&mut self.receiver, transfer, &mut self.cargo_buffer);
        let Kind::Delivered { channel, .. } = answer.kind else {
            return None;
        };
        Some((channel, delivered_part(&answer, &self.cargo_buffer).to_vec()))
    }

    fn counts(&mut self) -> (Vec<u32>, Vec<u32>) {
        let mut row = vec![0; 2 * self.receiver.count];
        copy_counts(&self.receiver, &mut row);
        let repeats = row.split_off(self.receiver.count);
        (row, repeats)
    }
}

/// Demand 3 for this program's own ends and the script of a seed.
pub fn play(seed: u64) -> Result<(), String> {
    let script = script(seed);
    check(&script, &mut OwnEnds::fresh(&script)).map_err(|fault| format!("seed {seed}: {fault}"))
}
