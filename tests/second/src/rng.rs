//! A small fixed-seed stream of pseudo-random numbers (xorshift, multiplied). The numbers that are
//! drawn can be kept, and a list of them can be played again: an input is so made anew, with some
//! of its numbers changed.

#[derive(Clone, Debug)]
pub struct Rng {
    state: u64,
    tape: Option<Box<Tape>>,
}

#[derive(Clone, Debug, Default)]
struct Tape {
    /// Of each number what was looked at, else 0.
    drawn: Vec<u64>,
    /// What comes in place of the stream, and then zeros.
    played: Option<Vec<u64>>,
}

impl Rng {
    /// Equal seeds give equal streams; neighbouring seeds are spread apart first.
    pub fn new(seed: u64) -> Rng {
        let mixed = seed.wrapping_add(1).wrapping_mul(0x9E37_79B9_7F4A_7C15);
        let mixed = (mixed ^ (mixed >> 29)).wrapping_mul(0xBF58_476D_1CE4_E5B9);
        Rng { state: (mixed ^ (mixed >> 32)) | 1, tape: None }
    }

    /// The same stream, of which the drawn numbers are kept.
    pub fn keeping(seed: u64) -> Rng {
        Rng { tape: Some(Box::default()), ..Rng::new(seed) }
    }

    /// These numbers, then zeros; what is drawn is kept here too.
    pub fn playing(numbers: Vec<u64>) -> Rng {
        let tape = Tape { drawn: Vec::new(), played: Some(numbers) };
        Rng { tape: Some(Box::new(tape)), ..Rng::new(0) }
    }

    /// The numbers drawn so far, where they are kept. Played, they make the same again.
    pub fn drawn(self) -> Vec<u64> {
        self.tape.map_or(Vec::new(), |tape| tape.drawn)
    }

    /// The next number, of which `used` leaves what is looked at.
    #[inline]
    fn draw(&mut self, used: impl Fn(u64) -> u64) -> u64 {
        if self.tape.is_some() {
            return self.draw_on_tape(used);
        }
        used(self.step())
    }

    #[inline]
    fn step(&mut self) -> u64 {
        self.state ^= self.state >> 12;
        self.state ^= self.state << 25;
        self.state ^= self.state >> 27;
        self.state.wrapping_mul(0x2545_F491_4F6C_DD1D)
    }

    #[cold]
    #[inline(never)]
    fn draw_on_tape(&mut self, used: impl Fn(u64) -> u64) -> u64 {
        let step = self.step();
        let Some(tape) = &mut self.tape else {
            return used(step);
        };
        let number = match &tape.played {
            Some(numbers) => numbers.get(tape.drawn.len()).copied().unwrap_or(0),
            None => step,
        };
        tape.drawn.push(used(number));
        used(number)
    }

    #[inline]
    pub fn next_u64(&mut self) -> u64 {
        self.draw(|number| number)
    }

    #[inline]
    pub fn byte(&mut self) -> u8 {
        (self.draw(|number| number & (0xFF << 56)) >> 56) as u8
    }

    /// A number below the bound; 0 when the bound is 0.
    #[inline]
    pub fn below(&mut self, bound: usize) -> usize {
        if bound == 0 {
            return 0;
        }
        (self.draw(|number| ((number >> 16) % bound as u64) << 16) >> 16) as usize
    }

    /// A number from low to high, both included.
    #[inline]
    pub fn between(&mut self, low: usize, high: usize) -> usize {
        low + self.below(high.saturating_sub(low) + 1)
    }

    /// A drawn 0 is a no, as long as there is one.
    #[inline]
    pub fn percent(&mut self, chance: usize) -> bool {
        self.below(100) + chance >= 100
    }

    #[inline]
    pub fn pick<T: Copy>(&mut self, choices: &[T]) -> T {
        choices[self.below(choices.len())]
    }

    pub fn bytes(&mut self, length: usize) -> Vec<u8> {
        let mut bytes = vec![0; length];
        let mut eights = bytes.chunks_exact_mut(8);
        for eight in &mut eights {
            eight.copy_from_slice(&self.next_u64().to_le_bytes());
        }
        let rest = eights.into_remainder();
        if !rest.is_empty() {
            let number = self.draw(|number| number & (u64::MAX >> (64 - 8 * rest.len())));
            rest.copy_from_slice(&number.to_le_bytes()[..rest.len()]);
        }
        bytes
    }
}
