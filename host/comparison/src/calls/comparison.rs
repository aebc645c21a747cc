//! Compares generated sequences of calls.

use crate::calls::book::Book;
use crate::calls::reduce::{difference, reduced};
use crate::calls::run::{run, Stop};
use crate::calls::simplify::simplified;
use crate::calls::step::Step;
use crate::calls::tally::Tally;
use crate::calls::{generate, script};
use std::marker::PhantomData;

/// A comparison of an implementation under way, and what was seen.
pub struct Comparison<L> {
    pub tally: Tally,
    library: PhantomData<L>,
}

/// A sequence that differs, with the seed that it was made from.
pub struct Differs {
    pub seed: u64,
    /// The steps that its difference needs, as simple as it allows.
    pub steps: Vec<Step>,
    stop: Stop,
}

impl<L: Book> Default for Comparison<L> {
    fn default() -> Comparison<L> {
        Comparison { tally: Tally::default(), library: PhantomData }
    }
}

impl<L: Book> Comparison<L> {
    /// Compares so many sequences, the first of them with this seed.
    pub fn compare(&mut self, first: u64, count: u64) -> Result<(), Differs> {
        for seed in (0..count).map(|index| first.wrapping_add(index)) {
            let steps = generate::sequence(seed);
            self.tally.sequences += 1;
            run::<L>(&steps, |step, seen| self.tally.count(step, &seen))
                .map_err(|stop| Differs::shortest::<L>(seed, &steps, stop))?;
        }
        Ok(())
    }
}

impl Differs {
    fn shortest<L: Book>(seed: u64, steps: &[Step], stop: Stop) -> Differs {
        let steps = reduced::<L>(&simplified::<L>(&reduced::<L>(steps)));
        let stop = difference::<L>(&steps).unwrap_or(stop);
        Differs { seed, steps, stop }
    }

    /// The shortest sequence that was found for the difference, as a script.
    pub fn script(&self) -> String {
        let head = format!("# from the sequence of seed {}\n", self.seed);
        [head, script::text(&self.steps), told(&self.stop)].concat()
    }
}

/// A difference as lines of comment.
pub fn told(stop: &Stop) -> String {
    let text = format!("step {} differs\n{}", stop.index + 1, stop.difference);
    text.lines().map(|line| format!("# {line}\n")).collect()
}
