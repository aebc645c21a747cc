//! Compares previews of the tender that a call leaves.

use crate::calls::book::{Book, NO_TENDER, OK};
use crate::calls::buffers::{same_given, same_words};
use crate::calls::independent_book::IndependentBook;
use crate::calls::layout::STATE;
use crate::calls::padded::Padded;
use crate::calls::step::{Call, Given, Step};
use crate::difference::Difference;
use independent::award::POSITIONS;
use independent::tender::State;

/// The word of the state of a tender, what its preview returns, and whether that tells a marginal rate.
type Outcome = (u64, u64, bool);

/// What previews can give.
const OUTCOMES: [(&str, Outcome); 9] = [
    ("an open tender previewed with a marginal rate", (State::Open as u64, OK, true)),
    ("an open tender previewed without a marginal rate", (State::Open as u64, OK, false)),
    ("an open tender whose preview is refused with 16", (State::Open as u64, 16, false)),
    ("a closed tender previewed with a marginal rate", (State::Closed as u64, OK, true)),
    ("a closed tender previewed without a marginal rate", (State::Closed as u64, OK, false)),
    ("a closed tender whose preview is refused with 16", (State::Closed as u64, 16, false)),
    ("an announced tender whose preview is refused", (State::Announced as u64, 15, false)),
    ("a revoked tender whose preview is refused", (State::Revoked as u64, 8, false)),
    ("no tender to preview", (NO_TENDER, NO_TENDER, false)),
];

/// The names of what previews can give.
pub fn names() -> impl Iterator<Item = &'static str> {
    OUTCOMES.iter().map(|outcome| outcome.0)
}

/// Compares a preview of the words, of which so many are lent, with that of the independent
/// implementation and with an allotment of a closed copy, and names what it gave.
pub fn compare<L: Book>(left: &Padded<u64>, count: usize) -> Result<&'static str, Difference> {
    let step = |call| Step { words: count, ..Step::new(call) };
    let preview = step(Call::Preview { places: POSITIONS });
    let mut words = left.clone();
    let library = preview.call::<L>(&mut words);
    same_words("after a preview", &words, left)?;
    let expected = preview.call::<IndependentBook>(&mut words);
    same_given(&library, &expected).map_err(within("a preview"))?;
    close(&mut words);
    let allotted = step(Call::Allot { places: POSITIONS }).call::<L>(&mut words);
    same_given(&allotted, &expected).map_err(within("the allotment of a closed copy"))?;
    Ok(name(left, &expected))
}

/// Closes an open tender, whatever the hour.
fn close(words: &mut Padded<u64>) {
    let state = &mut words.all_mut()[STATE];
    if *state == State::Open as u64 {
        *state = State::Closed as u64;
    }
}

/// The difference, with the call in which it stands.
fn within(call: &str) -> impl Fn(Difference) -> Difference + '_ {
    move |found| Difference { call: format!("{call}: {}", found.call), ..found }
}

/// The name of what a preview of the words gave.
fn name(words: &Padded<u64>, given: &Given) -> &'static str {
    let state = if given.result == NO_TENDER { NO_TENDER } else { words.all()[STATE] };
    let has_marginal = given.result == OK && given.told.all()[0] == 1;
    let outcome = (state, given.result, has_marginal);
    let found = OUTCOMES.iter().find(|named| named.1 == outcome);
    found.expect("a preview gives nothing else").0
}
