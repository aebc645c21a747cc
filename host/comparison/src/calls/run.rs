//! Makes calls on the library and on the independent implementation, and compares all that they do.

use crate::calls::book::{Book, OK, WORDS};
use crate::calls::buffers::{same_given, same_words};
use crate::calls::cuts;
use crate::calls::independent_book::IndependentBook;
use crate::calls::layout;
use crate::calls::look;
use crate::calls::padded::{self, Padded};
use crate::calls::previews;
use crate::calls::step::{Call, Given, Step};
use crate::difference::Difference;

/// A sequence of calls under way: the words of both implementations.
pub struct Run {
    library: Padded<u64>,
    expected: Padded<u64>,
}

/// What a call gave by both.
pub struct Seen {
    pub result: u64,
    /// The codes of the errors, as far as they were told.
    pub errors: Vec<u64>,
    /// What the limits did, of an allotment.
    pub cuts: Vec<&'static str>,
    /// What a preview after the call gave.
    pub preview: &'static str,
}

/// The step of a sequence at which the two differ.
pub struct Stop {
    pub index: usize,
    pub difference: Difference,
}

/// Runs a sequence from words that hold no tender, and hands on what each of its calls gave.
pub fn run<L: Book>(steps: &[Step], mut see: impl FnMut(&Step, Seen)) -> Result<(), Stop> {
    let mut run = Run::new();
    for (index, step) in steps.iter().enumerate() {
        match run.take::<L>(step) {
            Ok(seen) => see(step, seen),
            Err(difference) => return Err(Stop { index, difference }),
        }
    }
    Ok(())
}

impl Run {
    fn new() -> Run {
        Run { library: padded::numbers(WORDS), expected: padded::numbers(WORDS) }
    }

    /// Makes one call by both.
    fn take<L: Book>(&mut self, step: &Step) -> Result<Seen, Difference> {
        let before = self.library.clone();
        for words in [&mut self.library, &mut self.expected] {
            step.sets.iter().for_each(|&(word, value)| words.all_mut()[word] = value);
        }
        let lent = self.library.clone();
        let library = step.call::<L>(&mut self.library);
        let expected = step.call::<IndependentBook>(&mut self.expected);
        same_given(&library, &expected)?;
        let left = self.library.clone();
        if step.is_refused(expected.result) {
            same_given(&library, &Given { result: library.result, ..step.lent() })?;
            same_words("must stay", &self.library, &lent)?;
            self.library = before.clone();
            self.expected = before;
        }
        look::compare::<L>(self.library.first(WORDS), self.expected.first(WORDS))?;
        same_words("after the call", &self.library, &self.expected)?;
        let preview = previews::compare::<L>(&left, step.words)?;
        let cuts = cuts_of(step, &expected, lent.first(step.words));
        Ok(Seen { result: expected.result, errors: errors_of(step, &expected), cuts, preview })
    }
}

/// What the limits of the tender in the words did in an allotment.
fn cuts_of(step: &Step, given: &Given, words: &[u64]) -> Vec<&'static str> {
    if !matches!(step.call, Call::Allot { .. }) || given.result != OK {
        return Vec::new();
    }
    layout::tender_of(words).map_or_else(Vec::new, |tender| cuts::shown(&tender))
}

fn errors_of(step: &Step, given: &Given) -> Vec<u64> {
    if !matches!(step.call, Call::Receive { .. }) || given.result != OK {
        return Vec::new();
    }
    let codes = given.told.all().iter().copied().skip(2);
    codes.take_while(|&code| (1..1000).contains(&code)).collect()
}
