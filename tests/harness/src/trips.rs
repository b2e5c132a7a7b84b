//! The trip program against the second program's, on generated streams and on one past 64 bits.

use crate::run::Run;
use crate::shrink::{show, Difference, Trial};
use crate::streams::{bytes_of, difference_of, output_of};
use second::gen;
use second::message::Hearer;
use second::odometer::{Odometer, LARGEST_CIRCUMFERENCE};
use second::receiver::MOST_CHANNELS;
use second::rng::Rng;
use second::trip::trip;
use std::io::Result;

/// The most in one stream.
const CARGOES: usize = 40;

struct Trip {
    channel: usize,
    circumference: u64,
    stream: Vec<u8>,
}

/// Compares `streams` generated trips and the one past 64 bits; tells whether all agree.
pub fn trip_all(run: &Run, seed: u64, streams: usize) -> Result<bool> {
    let seeds = (0..streams).map(|place| seed.wrapping_add(place as u64));
    let made = seeds.map(|seed| (format!("trip {seed} 1"), Trip::generated(seed)));
    let past_64_bits = [(format!("trip {seed} 0"), Trip::past_64_bits())];
    let mut found: Vec<(String, Trip)> = Vec::new();
    for (again, trip) in made.chain(past_64_bits) {
        if trip.second()? != trip.proved(&run.command)? {
            found.push((again, trip));
        }
    }
    println!("{:>9} streams, {:>3} differ: trip", streams + 1, found.len());
    let Some((again, trip)) = found.iter().min_by_key(|(_, trip)| trip.stream.len()) else {
        return Ok(true);
    };
    show(run, &mut Trips { command: &run.command }, &trip.numbers(), again, "trip")?;
    Ok(false)
}

/// Trips whose numbers are the channel, the circumference and the stream's bytes, one by one.
pub struct Trips<'a> {
    pub command: &'a [String],
}

impl Trial for Trips<'_> {
    fn differs(&mut self, numbers: &[u64]) -> Result<Option<Difference>> {
        let Some(trip) = Trip::of(numbers) else {
            return Ok(None);
        };
        let found = difference_of(&trip.stream, &trip.second()?, &trip.proved(self.command)?);
        Ok(found.map(|found| {
            let Trip { channel, circumference, stream } = trip;
            let text = format!("    channel {channel}, circumference {circumference}\n{found}");
            Difference { drawn: numbers.to_vec(), input: stream, text }
        }))
    }
}

impl Trip {
    /// Only what the program takes as arguments.
    fn of(numbers: &[u64]) -> Option<Trip> {
        let [channel, circumference, stream @ ..] = numbers else {
            return None;
        };
        let channel = usize::try_from(*channel).ok().filter(|&channel| channel < MOST_CHANNELS)?;
        let range = 1..=LARGEST_CIRCUMFERENCE;
        let circumference = Some(*circumference).filter(|length| range.contains(length))?;
        Some(Trip { channel, circumference, stream: bytes_of(stream)? })
    }

    fn numbers(&self) -> Vec<u64> {
        let stream = self.stream.iter().map(|&byte| u64::from(byte));
        [self.channel as u64, self.circumference].into_iter().chain(stream).collect()
    }

    fn generated(seed: u64) -> Trip {
        let rng = &mut Rng::new(seed);
        let (any, some) = (rng.below(MOST_CHANNELS), 1 + rng.next_u64() % LARGEST_CIRCUMFERENCE);
        let channel = rng.pick(&[0, MOST_CHANNELS - 1, any, any]);
        let circumference = rng.pick(&[1, LARGEST_CIRCUMFERENCE, some, some]);
        Trip { channel, circumference, stream: gen::trip_stream(rng, channel, CARGOES) }
    }

    fn past_64_bits() -> Trip {
        let channel = 3;
        let circumference = LARGEST_CIRCUMFERENCE;
        Trip { channel, circumference, stream: gen::trip_past_64_bits(channel) }
    }

    fn second(&self) -> Result<Vec<u8>> {
        let odometer = Odometer::fresh(self.channel, self.circumference);
        let mut text = Vec::new();
        trip(Hearer::RIGHT, odometer, &self.stream[..], &mut text)?;
        Ok(text)
    }

    fn proved(&self, command: &[String]) -> Result<Vec<u8>> {
        let arguments = [self.channel.to_string(), self.circumference.to_string()];
        output_of(&[command, &arguments].concat(), &self.stream)
    }
}
