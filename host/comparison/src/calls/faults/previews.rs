//! Wrong ways to preview a tender.

use super::walks::{allot_changed, uncap};
use crate::calls::book::{Book, OK, WORDS};
use crate::calls::independent_book::IndependentBook as Right;
use crate::calls::layout::STATE;
use independent::refusal::Refusal;
use independent::tender::State;

/// Previews as a book with the fault does.
pub fn preview<const FAULT: usize>(words: &mut [u64], awards: &mut [u64], told: &mut [u64]) -> u64 {
    match FAULT {
        27 if is_in(State::Open, words) => Refusal::StillOpen.number(),
        29 if is_in(State::Announced, words) => Right::preview(&mut closed(words), awards, told),
        31 => preview_uncut(words, awards, told),
        33 if is_in(State::Announced, words) || is_in(State::Revoked, words) => {
            refusal_of_closed(words).unwrap_or_else(|| Right::preview(words, awards, told))
        }
        _ => {
            let result = Right::preview(words, awards, told);
            spoil::<FAULT>(result, words, awards, told);
            result
        }
    }
}

/// Writes what a book with the fault writes after a preview.
fn spoil<const FAULT: usize>(result: u64, words: &mut [u64], awards: &mut [u64], told: &mut [u64]) {
    match FAULT {
        28 if result == OK => words[STATE] = State::Announced as u64,
        30 if result == OK => told.iter_mut().take(2).for_each(|number| *number = 0),
        32 if result != OK => awards.fill(0),
        34 if result != OK && words.len() >= WORDS => words[WORDS - 1] ^= 1,
        _ => (),
    }
}

fn is_in(state: State, words: &[u64]) -> bool {
    Right::state(words) == state as u64
}

/// A copy of the words of a tender, closed.
fn closed(words: &[u64]) -> Vec<u64> {
    let mut copy = words.to_vec();
    copy[STATE] = State::Closed as u64;
    copy
}

/// Gives the awards of the uncut bids and the marginal rate of the cut ones.
fn preview_uncut(words: &mut [u64], awards: &mut [u64], told: &mut [u64]) -> u64 {
    let result = Right::preview(words, &mut [], told);
    if result == OK {
        allot_changed(&mut closed(words), awards, &mut [], uncap);
    }
    result
}

/// What refuses the allotment of a closed copy, or none.
fn refusal_of_closed(words: &[u64]) -> Option<u64> {
    Some(Right::allot(&mut closed(words), &mut [], &mut [])).filter(|&result| result != OK)
}
