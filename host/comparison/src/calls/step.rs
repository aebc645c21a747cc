//! A call with what it is given.

use crate::calls::book::{self, Book};
use crate::calls::padded::{self, Padded};

/// The calls, with what a host hands over.
#[derive(Clone, Debug, PartialEq, Eq)]
pub enum Call {
    Open { codes: Vec<u32>, limits: Vec<u64>, message: Vec<u8> },
    Receive { clock: (u64, u64), message: Vec<u8>, space: usize },
    Close { clock: (u64, u64) },
    Allot { places: usize },
    Preview { places: usize },
    Revoke,
    State,
    Terms,
    Codes,
    Limits,
    Held { code: u64 },
}

/// The names of the calls.
pub const KINDS: [&str; 11] = [
    "open", "receive", "close", "allot", "preview", "revoke", "state", "terms", "codes", "limits",
    "held",
];

impl Call {
    /// The call's name.
    pub fn kind(&self) -> &'static str {
        KINDS[match self {
            Call::Open { .. } => 0,
            Call::Receive { .. } => 1,
            Call::Close { .. } => 2,
            Call::Allot { .. } => 3,
            Call::Preview { .. } => 4,
            Call::Revoke => 5,
            Call::State => 6,
            Call::Terms => 7,
            Call::Codes => 8,
            Call::Limits => 9,
            Call::Held { .. } => 10,
        }]
    }

    /// How many numbers the call tells.
    pub fn told(&self) -> usize {
        match self {
            Call::Receive { .. } => book::ANSWER_NUMBERS,
            Call::Allot { .. } | Call::Preview { .. } => book::ALLOTMENT_NUMBERS,
            Call::Terms => book::TERMS_NUMBERS,
            Call::Codes => book::CODES_NUMBERS,
            Call::Limits => book::LIMITS_NUMBERS,
            Call::Held { .. } => book::HELD_NUMBERS,
            _ => 0,
        }
    }
}

/// A call with the words and the array that are lent to it.
#[derive(Clone, Debug, PartialEq, Eq)]
pub struct Step {
    pub call: Call,
    /// How many words are lent.
    pub words: usize,
    /// How many numbers the array has that the call tells numbers to.
    pub numbers: usize,
    /// Words that are set before the call, and put back after it where it is refused.
    pub sets: Vec<(usize, u64)>,
}

/// What a call gave and what stands in the buffers after it.
#[derive(Clone, Debug, PartialEq, Eq)]
pub struct Given {
    pub result: u64,
    pub space: Padded<u8>,
    pub awards: Padded<u64>,
    pub told: Padded<u64>,
}

impl Step {
    /// A call with all words and an array for all numbers.
    pub fn new(call: Call) -> Step {
        let numbers = call.told();
        Step { call, words: book::WORDS, numbers, sets: Vec::new() }
    }

    /// The buffers before the call.
    pub fn lent(&self) -> Given {
        let (mut space, mut places) = (0, 0);
        match self.call {
            Call::Receive { space: room, .. } => space = room,
            Call::Allot { places: count } | Call::Preview { places: count } => places = count,
            _ => (),
        }
        let (awards, told) = (padded::numbers(places), padded::numbers(self.numbers));
        Given { result: 0, space: padded::bytes(space), awards, told }
    }

    /// Makes the call on the words of an implementation.
    pub fn call<B: Book>(&self, words: &mut Padded<u64>) -> Given {
        let mut given = self.lent();
        let Given { result, space, awards, told } = &mut given;
        let (words, told) = (words.first_mut(self.words), told.all_mut());
        *result = match &self.call {
            Call::Open { codes, limits, message } => B::open(words, message, codes, limits),
            Call::Receive { clock, message, .. } => {
                B::receive(words, message, *clock, space.all_mut(), told)
            }
            Call::Close { clock } => B::close(words, *clock),
            Call::Allot { .. } => B::allot(words, awards.all_mut(), told),
            Call::Preview { .. } => B::preview(words, awards.all_mut(), told),
            Call::Revoke => B::revoke(words),
            Call::State => B::state(words),
            Call::Terms => B::terms(words, told),
            Call::Codes => B::codes(words, told),
            Call::Limits => B::limits(words, told),
            Call::Held { code } => B::held(words, *code, told),
        };
        given
    }

    /// Whether this result of the call leaves everything as it was.
    pub fn is_refused(&self, result: u64) -> bool {
        match self.call {
            Call::State => true,
            _ => result != book::OK,
        }
    }
}
