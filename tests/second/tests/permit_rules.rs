//! Writing only with permission (02, request 14): its sentences as rules that are tried on generated
//! inputs.

use second::gen::{self, PermittedCall};
use second::message::*;
use second::permit::*;
use second::play::{check, drive, script, Ends, OwnEnds, Script};
use second::rng::Rng;
use second::sender::{self, Sender};
use std::collections::BTreeMap;

const TIMEOUT: u32 = 100;

type Write = fn(&mut Sender, &mut Permit, usize, &[u8], u64, u32, &mut [u8]) -> (u8, usize);
type Form = fn(&[u8]) -> Vec<u8>;
type Maker = fn(&mut Rng, &Sender) -> PermittedCall;

/// Each way to write, the maker of its calls, and what it makes of a transfer.
const WAYS: [(Write, Maker, Form); 2] = [
    (send, gen::permitted_send, <[u8]>::to_vec),
    (send_message, gen::permitted_message, in_a_message),
];

fn in_a_message(transfer: &[u8]) -> Vec<u8> {
    let escaped = |&byte: &u8| match byte {
        0x7E => vec![0x7D, 0x5E],
        0x7D => vec![0x7D, 0x5D],
        _ => vec![byte],
    };
    [vec![0x7E, 1], transfer.iter().flat_map(escaped).collect(), vec![0x7E]].concat()
}

/// The L of the next transfer of a cargo.
fn next_length(sender: &Sender, cargo: &[u8]) -> usize {
    cargo.len() - sender.under_way.map_or(0, |cargo| cargo.sent) + 4
}

/// What the permit answers, in sums with room for every clock.
fn permit_answer(permit: Permit, length: usize, clock: u64, timeout: u32) -> u8 {
    let Permit::Held { room, came } = permit else {
        return 43;
    };
    let last = u128::from(came) + u128::from(timeout);
    match (clock < came || u128::from(clock) > last, length > usize::from(room)) {
        (true, _) => 45,
        (false, true) => 44,
        (false, false) => 0,
    }
}

/// What a call answers, and everything lent to it as it leaves it.
#[derive(Debug, PartialEq)]
struct Left {
    number: u8,
    written: usize,
    sender: Sender,
    permit: Permit,
    out: Vec<u8>,
}

fn left_by(write: Write, sender: &Sender, one: &PermittedCall) -> Left {
    let PermittedCall { mut permit, call, clock, timeout } = one.clone();
    let (mut sender, mut out) = (sender.clone(), vec![0xEE; call.out_length]);
    let (number, written) =
        write(&mut sender, &mut permit, call.channel, &call.cargo, clock, timeout, &mut out);
    Left { number, written, sender, permit, out }
}

/// What a call must leave, worked out with the plain sender.
fn due(sender: &Sender, one: &PermittedCall, form: Form) -> Left {
    let PermittedCall { permit, call, clock, timeout } = one.clone();
    let mut after = sender.clone();
    let mut transfer = vec![0; call.cargo.len() + 4];
    let (number, size) = sender::send(&mut after, call.channel, &call.cargo, &mut transfer);
    let bytes = form(&transfer[..size]);
    let number = match number {
        0 if bytes.len() > call.out_length => 28,
        0 => permit_answer(permit, next_length(sender, &call.cargo), clock, timeout),
        number => number,
    };
    let mut out = vec![0xEE; call.out_length];
    if number != 0 {
        return Left { number, written: 0, sender: sender.clone(), permit, out };
    }
    out[..bytes.len()].copy_from_slice(&bytes);
    Left { number, written: bytes.len(), sender: after, permit: Permit::None, out }
}

#[test]
fn the_plain_sender_answers_and_then_the_permit() {
    const CALLS: usize = 30_000;
    for (way, (write, make, form)) in WAYS.into_iter().enumerate() {
        let mut rng = Rng::new(140 + way as u64);
        let mut numbers: BTreeMap<u8, usize> = BTreeMap::new();
        for round in 0..CALLS {
            let sender = gen::sender(&mut rng, round % 5 > 0);
            let one = make(&mut rng, &sender);
            let left = left_by(write, &sender, &one);
            assert_eq!(left, due(&sender, &one, form), "{sender:?} {one:?}");
            *numbers.entry(left.number).or_default() += 1;
        }
        println!("{numbers:?}");
        let reached: Vec<u8> = numbers.keys().copied().collect();
        assert_eq!(reached, [0, 9, 23, 26, 27, 28, 29, 43, 44, 45]);
        assert!([0, 28, 43, 44, 45].iter().all(|number| numbers[number] > CALLS / 30));
    }
}

#[test]
fn more_room_never_refuses_what_less_allowed() {
    let mut rng = Rng::new(142);
    let mut numbers: BTreeMap<(u8, u8), usize> = BTreeMap::new();
    for round in 0..30_000 {
        let (write, make, _) = WAYS[round % 2];
        let sender = gen::sender(&mut rng, true);
        let mut one = make(&mut rng, &sender);
        let Permit::Held { room, came } = one.permit else {
            continue;
        };
        let less = left_by(write, &sender, &one);
        let (any, few) = (rng.next_u64() as u16, rng.below(3) as u16);
        let more_room = rng.pick(&[room.saturating_add(few), room.max(any), u16::MAX]);
        one.permit = Permit::Held { room: more_room, came };
        let more = left_by(write, &sender, &one);
        *numbers.entry((less.number, more.number)).or_default() += 1;
        match (less.number, more.number) {
            (0, _) => assert_eq!(more, less),
            (44, number) => assert!(number == 0 || number == 44),
            (number, after) => assert_eq!(number, after),
        }
    }
    println!("{numbers:?}");
    assert!([(0, 0), (44, 0), (44, 44), (45, 45), (28, 28)].iter().all(|both| numbers[both] > 200));
}

/// The transfer that a message carries, as this program's own reader reads it.
fn carried(message: &[u8]) -> Vec<u8> {
    let (mut reader, mut buffer) = (MessageReader::fresh(), vec![0; message.len()]);
    let mut last = Event::Nothing;
    for &byte in message {
        last = read_byte(&mut reader, &mut buffer, byte);
    }
    let Event::Message { start, end } = last else {
        panic!("no message but {last:?}");
    };
    buffer[start..end].to_vec()
}

/// Notifications, writes and a clock that runs, and seldom goes back, in any order: how many
/// notifications came and how many transfers were written.
fn run_of_writes(rng: &mut Rng) -> [usize; 2] {
    let cargo = b"ABCDEFGHIJ";
    let (mut sender, mut permit, mut out) = (Sender::fresh(64, 4, 8), Permit::None, [0; 19]);
    let mut clock = rng.pick(&[0, 1_000, u64::MAX - 2_000]);
    let (mut notifications, mut writes, mut since_last_write) = (0, 0, 0);
    for _ in 0..100 {
        let length = next_length(&sender, cargo);
        clock =
            if rng.percent(95) { clock + rng.below(20) as u64 } else { clock.saturating_sub(9) };
        if rng.percent(40) {
            notified(&mut permit, (length + rng.below(6) - 2) as u16, clock);
            (notifications, since_last_write) = (notifications + 1, since_last_write + 1);
            continue;
        }
        let due = permit_answer(permit, length, clock, 30);
        let (number, written) =
            WAYS[rng.below(2)].0(&mut sender, &mut permit, 3, cargo, clock, 30, &mut out);
        assert_eq!((number, number == 43), (due, since_last_write == 0));
        if number == 0 {
            let whole = out[..written].to_vec();
            let transfer = if whole[0] == FLAG { carried(&whole) } else { whole };
            assert_eq!(transfer[3], writes as u8);
            (writes, since_last_write) = (writes + 1, 0);
        }
    }
    [notifications, writes]
}

#[test]
fn each_written_transfer_used_one_notification() {
    let mut rng = Rng::new(143);
    let mut in_all = [0, 0];
    for _ in 0..2_000 {
        let [notifications, writes] = run_of_writes(&mut rng);
        assert!(writes <= notifications);
        in_all = [in_all[0] + notifications, in_all[1] + writes];
    }
    println!("{in_all:?}");
    assert!(in_all[1] > 10_000 && in_all[1] + 10_000 < in_all[0]);
}

/// This program's ends, whose host writes with permission and often tries before it has one.
struct PermittedEnds {
    plain: OwnEnds,
    permit: Permit,
    clock: u64,
    out: Vec<u8>,
    rng: Rng,
    refusals: BTreeMap<u8, usize>,
}

impl PermittedEnds {
    fn fresh(script: &Script, seed: u64) -> PermittedEnds {
        PermittedEnds {
            plain: OwnEnds::fresh(script),
            permit: Permit::None,
            clock: 0,
            out: vec![0; 2 * script.largest_transfer + 3],
            rng: Rng::new(seed),
            refusals: BTreeMap::new(),
        }
    }

    fn write(&mut self, way: usize, channel: usize, cargo: &[u8], room: usize) -> (u8, usize) {
        let PermittedEnds { plain, permit, clock, out, .. } = self;
        let out = &mut out[..room];
        WAYS[way].0(&mut plain.sender, permit, channel, cargo, *clock, TIMEOUT, out)
    }

    /// A try that must be refused: without a permit, too long for it, too late, with a short output,
    /// or with no cargo.
    fn try_in_vain(&mut self, channel: usize, cargo: &[u8]) {
        let length = next_length(&self.plain.sender, cargo);
        let fault = self.rng.below(5);
        match fault {
            0 => self.permit = Permit::None,
            1 => notified(&mut self.permit, length as u16 - 1, self.clock),
            _ => notified(&mut self.permit, length as u16, self.clock),
        }
        self.clock += if fault == 2 { 101 } else { 0 };
        let (room, cargo) = match fault {
            3 => (4, cargo),
            4 => (self.out.len(), &[][..]),
            _ => (self.out.len(), cargo),
        };
        let way = self.rng.below(2);
        let (number, _) = self.write(way, channel, cargo, room);
        assert_ne!(number, 0);
        *self.refusals.entry(number).or_default() += 1;
    }
}

impl Ends for PermittedEnds {
    fn send(&mut self, channel: usize, cargo: &[u8]) -> Result<Vec<u8>, u8> {
        for _ in 0..self.rng.below(4) {
            self.try_in_vain(channel, cargo);
        }
        let length = next_length(&self.plain.sender, cargo);
        notified(&mut self.permit, (length + self.rng.below(9)) as u16, self.clock);
        self.clock += self.rng.below(101) as u64;
        let way = self.rng.below(2);
        match self.write(way, channel, cargo, self.out.len()) {
            (0, written) if way == 0 => Ok(self.out[..written].to_vec()),
            (0, written) => Ok(carried(&self.out[..written])),
            (number, _) => Err(number),
        }
    }

    fn abandon(&mut self) -> u8 {
        self.plain.abandon()
    }

    fn take(&mut self, transfer: &[u8]) -> Option<(usize, Vec<u8>)> {
        self.plain.take(transfer)
    }

    fn counts(&mut self) -> (Vec<u32>, Vec<u32>) {
        self.plain.counts()
    }
}

#[test]
fn demand_three_holds_with_permitted_writes() {
    let mut refusals: BTreeMap<u8, usize> = BTreeMap::new();
    for seed in 0..200 {
        let script = script(seed);
        let mut ends = PermittedEnds::fresh(&script, seed);
        assert_eq!(check(&script, &mut ends), Ok(()), "seed {seed}");
        for (number, times) in ends.refusals {
            *refusals.entry(number).or_default() += times;
        }
        let again = drive(&script, &mut PermittedEnds::fresh(&script, seed + 1));
        assert_eq!(again, drive(&script, &mut OwnEnds::fresh(&script)), "seed {seed}");
    }
    println!("{refusals:?}");
    assert!([26, 28, 43, 44, 45].iter().all(|number| refusals[number] > 1_000));
}
