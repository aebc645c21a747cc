//! Where the parts of a tender stand in its words.
//!
//! A host saves the words as they are, so they must mean the same to every later library. The
//! comparison therefore holds them to this layout, and reads the independent tender from them.

use crate::calls::book::WORDS;
use independent::announcement::Terms;
use independent::application::PLACES;
use independent::award::{Amount, Bid, Offer, Rate, Side};
use independent::calendar::{Date, Moment, Time};
use independent::tender::{Holding, State, Tender, MOST_CODES};

pub const FORM: usize = 0;
pub const STATE: usize = 1;
pub const COUNT: usize = 2;
const TERMS: usize = 3;
pub const OFFERED: usize = TERMS + 15;
pub const CODES: usize = 24;
const TIMES: usize = 88;
const FLAGS: usize = 152;
const RATES: usize = 216;
pub const AMOUNTS: usize = 856;
pub const LIMITS: usize = 1496;

/// The number of this layout.
pub const THE_FORM: u64 = 2;
const STATES: [State; 4] = [State::Open, State::Closed, State::Announced, State::Revoked];

/// The tender that the words hold, or none.
pub fn tender_of(words: &[u64]) -> Option<Tender> {
    let words: &[u64; WORDS] = words.first_chunk()?;
    let state = *STATES.get(usize::try_from(words[STATE]).ok()?)?;
    let count =
        usize::try_from(words[COUNT]).ok().filter(|count| (1..=MOST_CODES).contains(count))?;
    let rise = words[CODES..CODES + count].windows(2).all(|pair| pair[0] < pair[1]);
    if words[FORM] != THE_FORM || !rise {
        return None;
    }
    let book = (0..count).map(|position| holding_of(words, position)).collect();
    Some(Tender { terms: terms_of(words), state, book })
}

fn terms_of(words: &[u64; WORDS]) -> Terms {
    let told = |index| words[TERMS + index];
    let execution = Date::of_number(told(12)).expect("the words hold an execution date");
    let time = Time::of_number(told(13)).expect("the words hold a cut-off");
    let side = if told(11) == 0 { Side::Collects } else { Side::Invests };
    Terms {
        identifier: std::array::from_fn(|index| told(index) as u8),
        execution,
        cut_off: Moment { date: execution, time },
        most_bids: told(14) as usize,
        minimum: Amount(told(16)),
        increment: Amount(told(17)),
        maximum: Some(Amount(told(18))).filter(|maximum| maximum.0 > 0),
        minimum_allocation: Amount(told(19)),
        offer: Offer { side, amount: Amount(told(15)), limit: Rate(told(20) as u32) },
    }
}

fn holding_of(words: &[u64; WORDS], position: usize) -> Holding {
    let has_time = words[FLAGS + position] != 0;
    let first = PLACES * position;
    Holding {
        code: words[CODES + position] as u32,
        cap: Some(Amount(words[LIMITS + position])).filter(|cap| cap.0 > 0),
        time: Time::of_number(words[TIMES + position]).filter(|_| has_time),
        bids: std::array::from_fn(|place| Bid {
            rate: Rate(words[RATES + first + place] as u32),
            amount: Amount(words[AMOUNTS + first + place]),
        }),
    }
}

/// The numbers of a tender's terms, as they are told and as they stand in the words.
pub fn terms_numbers(terms: &Terms) -> [u64; 21] {
    let mut numbers = [0; 21];
    for (number, &byte) in numbers.iter_mut().zip(&terms.identifier) {
        *number = u64::from(byte);
    }
    numbers[11..].copy_from_slice(&[
        u64::from(terms.offer.side == Side::Invests),
        terms.execution.number(),
        terms.cut_off.time.number(),
        terms.most_bids as u64,
        terms.offer.amount.0,
        terms.minimum.0,
        terms.increment.0,
        terms.maximum.map_or(0, |maximum| maximum.0),
        terms.minimum_allocation.0,
        u64::from(terms.offer.limit.0),
    ]);
    numbers
}

/// The limit of a counterparty as it is told and as it stands in the words: zero for none.
pub fn limit_number(holding: &Holding) -> u64 {
    holding.cap.map_or(0, |cap| cap.0)
}

/// Sets all words to a tender that was opened.
pub fn put_opened(words: &mut [u64], tender: &Tender) {
    words[..WORDS].fill(0);
    words[FORM] = THE_FORM;
    words[COUNT] = tender.book.len() as u64;
    words[TERMS..CODES].copy_from_slice(&terms_numbers(&tender.terms));
    for (word, holding) in words[CODES..].iter_mut().zip(&tender.book) {
        *word = u64::from(holding.code);
    }
    for (word, holding) in words[LIMITS..].iter_mut().zip(&tender.book) {
        *word = limit_number(holding);
    }
    put_changed(words, tender);
}

/// Sets the words that calls after the opening change.
pub fn put_changed(words: &mut [u64], tender: &Tender) {
    words[STATE] = tender.state as u64;
    for (position, holding) in tender.book.iter().enumerate() {
        words[TIMES + position] = holding.time.map_or(0, Time::number);
        words[FLAGS + position] = u64::from(holding.time.is_some());
        for (place, bid) in holding.bids.iter().enumerate() {
            words[RATES + PLACES * position + place] = u64::from(bid.rate.0);
            words[AMOUNTS + PLACES * position + place] = bid.amount.0;
        }
    }
}

/// What the word of this index holds.
pub fn name(index: isize) -> String {
    let Some(index) = usize::try_from(index).ok().filter(|&index| index < WORDS) else {
        return "beside the tender".to_string();
    };
    let of_code = |first| format!("of the code at index {}", index - first);
    let of_place = |first| {
        let position = index - first;
        format!("of place {} of the code at index {}", 1 + position % PLACES, position / PLACES)
    };
    match index {
        FORM => "the form".to_string(),
        STATE => "the state".to_string(),
        COUNT => "the number of codes".to_string(),
        LIMITS.. => format!("the limit {}", of_code(LIMITS)),
        AMOUNTS.. => format!("the amount {}", of_place(AMOUNTS)),
        RATES.. => format!("the rate {}", of_place(RATES)),
        FLAGS.. => format!("whether a time is held {}", of_code(FLAGS)),
        TIMES.. => format!("the time {}", of_code(TIMES)),
        CODES.. => format!("the code at index {}", index - CODES),
        TERMS.. => format!("number {} of the terms", index - TERMS),
    }
}
