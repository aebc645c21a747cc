//! Compares reading and writing of generated messages.

use crate::difference::{hex, Difference};
use crate::interface::{Independent, Interface};
use crate::messages::tally::{Outcome, Tally};
use crate::messages::{generate, reading, writing};
use crate::random::Random;
use std::fmt::{self, Display, Formatter};

/// A comparison under way, and what was seen.
#[derive(Default)]
pub struct Comparison {
    pub tally: Tally,
}

/// A message whose reading or writing differs.
pub struct Differs {
    seed: u64,
    damage: &'static str,
    message: Vec<u8>,
    difference: Difference,
}

impl Display for Differs {
    fn fmt(&self, out: &mut Formatter) -> fmt::Result {
        writeln!(out, "seed {} differs, damage: {}", self.seed, self.damage)?;
        writeln!(out, "message of {} bytes: {}", self.message.len(), hex(&self.message))?;
        write!(out, "{}", self.difference)
    }
}

impl Comparison {
    /// Compares so many messages, the first of them with this seed.
    pub fn compare(&mut self, first: u64, count: u64) -> Result<(), Differs> {
        for seed in (0..count).map(|index| first.wrapping_add(index)) {
            let case = generate::case(seed);
            self.tally.add(Outcome::Damaged(case.damage));
            self.compare_message(seed, &case.message).map_err(|difference| Differs {
                seed,
                damage: case.damage,
                message: case.message,
                difference,
            })?;
        }
        Ok(())
    }

    fn compare_message(&mut self, seed: u64, message: &[u8]) -> Result<(), Difference> {
        // The message stands among digits and at any place in a word, so that no call leans on
        // what is around it.
        let before = seed as usize % 8;
        let around = [&b"00000000"[..before], message, b"00000000"].concat();
        let message = &around[before..before + message.len()];
        let random = &mut Random::new(!seed);
        reading::compare(random, message, &mut self.tally)?;
        reading::count(message, &mut self.tally);
        if Independent::read(message) == 0 {
            writing::compare_own(random, message, &mut self.tally)?;
        }
        writing::compare_others(random, &mut self.tally)
    }
}
