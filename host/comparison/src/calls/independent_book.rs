//! The independent implementation's calls of a tender, on the same words.

use crate::calls::book::{
    Book, ANSWER_NUMBERS, CODES_NUMBERS, HELD_NUMBERS, LIMITS_NUMBERS, NO_TENDER, OK, WORDS,
};
use crate::calls::layout;
use independent::award::Allotment;
use independent::calendar::{Moment, Time};
use independent::refusal::Refusal;
use independent::tender::{Reception, Tender};

/// The independent implementation.
pub struct IndependentBook;

/// What a call returns, which hands on what it gave where it is not refused.
fn answer<T>(given: Result<T, Refusal>, hand_on: impl FnOnce(T)) -> u64 {
    match given {
        Ok(given) => {
            hand_on(given);
            OK
        }
        Err(refusal) => refusal.number(),
    }
}

/// Calls the tender in the words and sets them where the call is not refused.
fn change<T>(
    words: &mut [u64],
    call: impl FnOnce(&mut Tender) -> Result<T, Refusal>,
    tell: impl FnOnce(T),
) -> u64 {
    let Some(mut tender) = layout::tender_of(words) else { return NO_TENDER };
    answer(call(&mut tender), |given| {
        layout::put_changed(words, &tender);
        tell(given);
    })
}

/// Tells as many numbers as there is room for.
fn tell(told: &mut [u64], numbers: &[u64]) {
    let count = told.len().min(numbers.len());
    told[..count].copy_from_slice(&numbers[..count]);
}

/// Tells the numbers of the tender in the words.
fn tell_of<const N: usize>(
    words: &[u64],
    told: &mut [u64],
    numbers: impl FnOnce(&Tender) -> [u64; N],
) -> u64 {
    let Some(tender) = layout::tender_of(words) else { return NO_TENDER };
    tell(told, &numbers(&tender));
    OK
}

fn answer_numbers(reception: &Reception) -> [u64; ANSWER_NUMBERS] {
    let mut numbers = [0; ANSWER_NUMBERS];
    numbers[0] = reception.length as u64;
    numbers[1] = reception.errors.count() as u64;
    for (number, code) in numbers[2..].iter_mut().zip(reception.errors.codes()) {
        *number = code;
    }
    numbers
}

fn tell_allotment(given: &Allotment, awards: &mut [u64], told: &mut [u64]) {
    tell(awards, &given.awards.map(|award| award.0));
    let marginal = given.marginal_rate;
    let rate = marginal.map_or(0, |rate| u64::from(rate.0));
    tell(told, &[u64::from(marginal.is_some()), rate]);
}

/// The numbers that tell which codes are admitted.
pub fn codes_numbers(tender: &Tender) -> [u64; CODES_NUMBERS] {
    let mut numbers = [0; CODES_NUMBERS];
    numbers[0] = tender.book.len() as u64;
    for (number, holding) in numbers[1..].iter_mut().zip(&tender.book) {
        *number = u64::from(holding.code);
    }
    numbers
}

/// The numbers that tell the credit limits.
pub fn limits_numbers(tender: &Tender) -> [u64; LIMITS_NUMBERS] {
    let mut numbers = [0; LIMITS_NUMBERS];
    numbers[0] = tender.book.len() as u64;
    for (number, holding) in numbers[1..].iter_mut().zip(&tender.book) {
        *number = layout::limit_number(holding);
    }
    numbers
}

/// The numbers that tell what is held for a code.
pub fn held_numbers(tender: &Tender, code: u64) -> [u64; HELD_NUMBERS] {
    let mut numbers = [0; HELD_NUMBERS];
    let Some(holding) = tender.held(code) else { return numbers };
    numbers[0] = 1;
    numbers[1] = u64::from(holding.time.is_some());
    numbers[2] = holding.time.map_or(0, Time::number);
    for (place, bid) in holding.bids.iter().enumerate() {
        numbers[3 + place] = u64::from(bid.rate.0);
        numbers[13 + place] = bid.amount.0;
    }
    numbers
}

impl Book for IndependentBook {
    fn open(words: &mut [u64], message: &[u8], codes: &[u32], limits: &[u64]) -> u64 {
        if words.len() < WORDS {
            return NO_TENDER;
        }
        let opened = Tender::open(message, codes, limits);
        answer(opened, |tender| layout::put_opened(words, &tender))
    }

    fn receive(
        words: &mut [u64],
        message: &[u8],
        clock: (u64, u64),
        space: &mut [u8],
        told: &mut [u64],
    ) -> u64 {
        let clock = Moment::of_numbers(clock.0, clock.1);
        let receive = |tender: &mut Tender| tender.receive(message, clock, space);
        change(words, receive, |given| tell(told, &answer_numbers(&given)))
    }

    fn close(words: &mut [u64], clock: (u64, u64)) -> u64 {
        let clock = Moment::of_numbers(clock.0, clock.1);
        change(words, |tender| tender.close(clock), |()| ())
    }

    fn allot(words: &mut [u64], awards: &mut [u64], told: &mut [u64]) -> u64 {
        change(words, Tender::allot, |given| tell_allotment(&given, awards, told))
    }

    fn preview(words: &mut [u64], awards: &mut [u64], told: &mut [u64]) -> u64 {
        let Some(tender) = layout::tender_of(words) else { return NO_TENDER };
        answer(tender.preview(), |given| tell_allotment(&given, awards, told))
    }

    fn revoke(words: &mut [u64]) -> u64 {
        change(words, Tender::revoke, |()| ())
    }

    fn state(words: &[u64]) -> u64 {
        layout::tender_of(words).map_or(NO_TENDER, |tender| tender.state as u64)
    }

    fn terms(words: &[u64], told: &mut [u64]) -> u64 {
        tell_of(words, told, |tender| layout::terms_numbers(&tender.terms))
    }

    fn codes(words: &[u64], told: &mut [u64]) -> u64 {
        tell_of(words, told, codes_numbers)
    }

    fn limits(words: &[u64], told: &mut [u64]) -> u64 {
        tell_of(words, told, limits_numbers)
    }

    fn held(words: &[u64], code: u64, told: &mut [u64]) -> u64 {
        tell_of(words, told, |tender| held_numbers(tender, code))
    }
}
