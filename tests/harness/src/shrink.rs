//! A difference made smaller: the numbers that its input was drawn from are dropped, zeroed and
//! lessened, and each change is kept after which the two still differ and the input is smaller.

use crate::drawn;
use crate::run::Run;
use std::cmp::Ordering;
use std::io::Result;
use std::ops::Range;
use std::time::{Duration, Instant};

const MOST_TRIES: usize = 20_000;
const LONGEST: Duration = Duration::from_secs(10);
/// So few numbers that every block of them is tried.
const FEW: usize = 64;

/// An input on which the two differ.
#[derive(Clone, Debug, PartialEq, Eq)]
pub struct Difference {
    /// The numbers that make it.
    pub drawn: Vec<u64>,
    /// What is to be small.
    pub input: Vec<u8>,
    /// The input, and what differs, in lines.
    pub text: String,
}

impl Difference {
    fn is_smaller_than(&self, other: &Difference) -> bool {
        self.size().cmp(&other.size()).then_with(|| self.order(other)) == Ordering::Less
    }

    /// Short comes first, then many zeros.
    fn size(&self) -> (usize, usize) {
        let other_than_zero = self.input.iter().filter(|&&byte| byte != 0).count();
        (self.input.len(), other_than_zero)
    }

    /// Of two that are alike in size: what stands at the end should be small.
    fn order(&self, other: &Difference) -> Ordering {
        let input = self.input.iter().rev().cmp(other.input.iter().rev());
        let drawn = (self.drawn.len(), &self.drawn).cmp(&(other.drawn.len(), &other.drawn));
        input.then(drawn)
    }
}

/// What makes an input from numbers, and puts it to both.
pub trait Trial {
    fn differs(&mut self, numbers: &[u64]) -> Result<Option<Difference>>;
}

struct Shrinker<'a> {
    trial: &'a mut dyn Trial,
    smallest: Difference,
    tries_left: usize,
    end: Instant,
}

/// The smallest difference that is found from this one on.
pub fn shrunk(trial: &mut dyn Trial, found: Difference) -> Result<Difference> {
    let end = Instant::now() + LONGEST;
    let mut shrinker = Shrinker { trial, smallest: found, tries_left: MOST_TRIES, end };
    loop {
        let dropped = shrinker.change_blocks(|numbers, block| drop(numbers.drain(block)))?;
        let zeroed = shrinker.change_blocks(|numbers, block| numbers[block].fill(0))?;
        let lessened = shrinker.lessen_each()?;
        if !(dropped || zeroed || lessened) {
            return Ok(shrinker.smallest);
        }
    }
}

impl Shrinker<'_> {
    /// Whether a change of all numbers, or of a smaller block of them, was kept.
    fn change_blocks(&mut self, change: fn(&mut Vec<u64>, Range<usize>)) -> Result<bool> {
        let mut kept = false;
        let mut size = self.smallest.drawn.len();
        while size > 0 {
            let few = self.smallest.drawn.len() <= FEW;
            let mut start = 0;
            while start < self.smallest.drawn.len() {
                let mut numbers = self.smallest.drawn.clone();
                let end = numbers.len().min(start + size);
                change(&mut numbers, start..end);
                if self.keeps(&numbers)? {
                    kept = true;
                } else {
                    start += if few { 1 } else { size };
                }
            }
            size = if few { size - 1 } else { size / 2 };
        }
        Ok(kept)
    }

    /// Whether a number was lessened.
    fn lessen_each(&mut self) -> Result<bool> {
        let mut kept = false;
        let mut place = 0;
        while place < self.smallest.drawn.len() {
            if self.lessen(place)? {
                kept = true;
            } else {
                place += 1;
            }
        }
        Ok(kept)
    }

    fn lessen(&mut self, place: usize) -> Result<bool> {
        let (before, behind) = self.smallest.drawn.split_at(place);
        let (&number, behind) = behind.split_first().expect("the place of a number");
        let list = |numbers: &[u64], behind: &[u64]| [before, numbers, behind].concat();
        let less = less_than(number).map(|less| list(&[less], behind));
        // With a 0 in its place the maker may draw one number more, or one less.
        let zero = [list(&[0, 0], behind), list(&[0], behind.get(1..).unwrap_or(&[]))];
        let tries: Vec<Vec<u64>> = less.chain(zero).filter(|_| number != 0).collect();
        for numbers in tries {
            if self.keeps(&numbers)? {
                return Ok(true);
            }
        }
        Ok(false)
    }

    /// Whether these numbers make a smaller difference; it is then the smallest.
    fn keeps(&mut self, numbers: &[u64]) -> Result<bool> {
        if numbers == self.smallest.drawn || self.tries_left == 0 || Instant::now() > self.end {
            return Ok(false);
        }
        self.tries_left -= 1;
        let found = self.trial.differs(numbers)?;
        let Some(smaller) = found.filter(|found| found.is_smaller_than(&self.smallest)) else {
            return Ok(false);
        };
        self.smallest = smaller;
        Ok(true)
    }
}

/// Numbers to try in place of this one: a 1 in each way that a number is looked at, a part of it,
/// and all but one of its bytes.
fn less_than(number: u64) -> impl Iterator<Item = u64> {
    let ones = [1, 1 << 16, 1 << 56];
    let parts = [number / 2, number - number / 4, number - number / 16, number.saturating_sub(1)];
    let bytes = (0..8).map(move |byte| number & !(0xFF << (8 * byte)));
    ones.into_iter().chain(parts).chain(bytes).filter(move |&less| less < number)
}

/// Shows the difference that these numbers make as small as it gets, and the lines that show it
/// again: found by `again`, and shrunk by `name` and its numbers.
pub fn show(
    run: &Run,
    trial: &mut dyn Trial,
    numbers: &[u64],
    again: &str,
    name: &str,
) -> Result<()> {
    match trial.differs(numbers)? {
        Some(found) => {
            let Difference { drawn, text, .. } = shrunk(trial, found)?;
            print!("  smallest input found:\n{text}");
            println!("  again:  {}", run.line(again));
            println!("  shrunk: {}", run.line(&format!("replay {name} {}", drawn::text(&drawn))));
        }
        None => println!("  asked once more it agrees; found by {}", run.line(again)),
    }
    Ok(())
}

/// Shows what these numbers make; tells whether the two agree.
pub fn replay(trial: &mut dyn Trial, numbers: &[u64], name: &str) -> Result<bool> {
    let found = trial.differs(numbers)?;
    match &found {
        Some(Difference { text, .. }) => print!("it differs: {name}\n{text}"),
        None => println!("it agrees: {name}"),
    }
    Ok(found.is_none())
}

#[cfg(test)]
mod tests {
    use super::*;
    use second::rng::Rng;

    /// A list of up to 40 small numbers and any bytes; what differs is a matter of the list.
    struct Lists {
        differ: fn(&[u8]) -> bool,
        tries: usize,
    }

    impl Trial for Lists {
        fn differs(&mut self, numbers: &[u64]) -> Result<Option<Difference>> {
            self.tries += 1;
            let mut rng = Rng::playing(numbers.to_vec());
            let mut input: Vec<u8> = (0..rng.below(41)).map(|_| rng.below(200) as u8).collect();
            let differs = (self.differ)(&input);
            let behind = rng.below(20);
            input.extend(rng.bytes(behind));
            let text = format!("{input:?}\n");
            Ok(differs.then_some(Difference { drawn: rng.drawn(), input, text }))
        }
    }

    /// The smallest of the first list that differs, and the tries for it.
    fn smallest(differ: fn(&[u8]) -> bool) -> (Difference, usize) {
        let mut lists = Lists { differ, tries: 0 };
        let first = (0..).find_map(|seed| {
            let mut rng = Rng::new(seed);
            let numbers: Vec<u64> = (0..100).map(|_| rng.next_u64()).collect();
            lists.differs(&numbers).unwrap()
        });
        lists.tries = 0;
        (shrunk(&mut lists, first.unwrap()).unwrap(), lists.tries)
    }

    #[test]
    fn the_smallest_list_is_found() {
        let (one, _) = smallest(|list| list.iter().any(|&number| number > 6));
        assert_eq!(one.input, [7]);
        let (two, _) = smallest(|list| list.iter().filter(|&&number| number > 99).count() > 1);
        assert_eq!(two.input, [100, 100]);
        let (long, tries) = smallest(|list| list.len() > 8 && list[8] % 2 == 1);
        assert_eq!(long.input, [0, 0, 0, 0, 0, 0, 0, 0, 1]);
        assert!(tries <= MOST_TRIES);
    }

    #[test]
    fn its_numbers_make_it_again() {
        let differ = |list: &[u8]| list.windows(2).any(|two| two[0] > two[1]);
        let (found, _) = smallest(differ);
        assert_eq!(found.input, [1, 0]);
        let mut lists = Lists { differ, tries: 0 };
        assert_eq!(lists.differs(&found.drawn).unwrap(), Some(found));
    }

    #[test]
    fn an_input_that_cannot_shrink_stays() {
        let (found, tries) = smallest(|_| true);
        assert!(found.input.is_empty() && tries < 100, "{found:?} in {tries} tries");
    }
}
