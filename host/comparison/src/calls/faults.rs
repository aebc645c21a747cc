//! A book with one fault, to see that the comparison finds it.

mod previews;
mod walks;

use self::walks::{allot_accepted, allot_changed, shift_limits, uncap, Walk};
use crate::calls::book::{Book, NO_TENDER, OK, WORDS};
use crate::calls::independent_book::IndependentBook as Right;
use crate::calls::layout::{self, LIMITS, STATE};
use crate::calls::script::parted::Parted;
use independent::address::{first_five, Address};
use independent::application::{Application, Field};
use independent::award::Side;
use independent::tender::Tender;

/// The faults, by their numbers.
pub const FAULTS: [&str; 35] = [
    "a byte of a confirmation is wrong",
    "a byte past a reply changes",
    "the time of an application with an error is held",
    "a cent goes to the last bid of a rate",
    "the marginal rate is told where there is none",
    "a refused call tells a number",
    "a refused closing closes",
    "the state is told of words that hold no tender",
    "a word past the tender changes",
    "a short array is told nothing",
    "a long sender is answered as a short one",
    "a malformed recipient is an error",
    "a reply space of 418 bytes is enough",
    "the limits cut nothing",
    "the awards are cut and not the bids",
    "20 comes before 19",
    "a limit of fifteen nines is refused",
    "the limits are told of other codes",
    "the bids are walked in the order of their places",
    "equal rates are walked from the last place",
    "a bid that does not fit whole is skipped",
    "a bid cut to zero stays in line for a cent",
    "the limits cut in LA",
    "the limits cut other codes",
    "the marginal rate is that of the uncut bids",
    "16 looks at the cut bids",
    "a bid of no amount drops out",
    "a preview of an open tender is refused with 14",
    "a preview announces the tender",
    "an announced tender is previewed",
    "a preview tells no marginal rate",
    "a preview gives the awards of the uncut bids",
    "a refused preview writes awards",
    "16 comes before 8 and 15 in a preview",
    "a refused preview writes the last word",
];
/// The number of no fault.
pub const NO_FAULT: usize = FAULTS.len();

/// A book with the fault of this number.
pub struct Faulty<const FAULT: usize>;

/// Holds the time of the message's reference for its sender, whatever became of it.
fn hold_time(words: &mut [u64], message: &[u8]) {
    let Some(mut tender) = layout::tender_of(words) else { return };
    let Ok(read) = Application::read(message) else { return };
    let (code, time) = (read.number(Field::Sender), read.number(Field::ReferenceTime));
    let time = time.and_then(independent::calendar::Time::of_number);
    for holding in tender.book.iter_mut().filter(|holding| Some(u64::from(holding.code)) == code) {
        holding.time = holding.time.max(time);
    }
    layout::put_changed(words, &tender);
}

/// The message as a book with the fault takes it.
fn taken<const FAULT: usize>(message: &[u8]) -> Vec<u8> {
    let Some(mut parted) = Parted::of(message) else { return message.to_vec() };
    match FAULT {
        10 => parted.sender = first_five(&parted.sender).to_vec(),
        11 if Address::read(&parted.recipient).is_none() => parted.recipient[0] = b'x',
        _ => (),
    }
    parted.joined()
}

/// The space as a book with the fault takes it.
fn wide_enough<const FAULT: usize>(space: &[u8]) -> Vec<u8> {
    let mut space = space.to_vec();
    if FAULT == 12 && space.len() >= 418 {
        space.resize(500, 0);
    }
    space
}

/// Takes a cent from the first award that a rate's last bid can have it from.
fn move_cent(awards: &mut [u64]) {
    let given: Vec<usize> = (0..awards.len()).filter(|&index| awards[index] > 1).collect();
    if let [first, .., last] = given[..] {
        if awards[first] == awards[last] + 1 {
            awards.swap(first, last);
        }
    }
}

/// The walk of a book with the fault.
fn walk<const FAULT: usize>() -> Walk {
    let right = walks::RIGHT;
    match FAULT {
        18 => Walk { order: |_, a, b| a.position.cmp(&b.position), ..right },
        19 => Walk { order: walks::last_place_first, ..right },
        20 => Walk { step: |amount, left| if amount <= left { amount } else { 0 }, ..right },
        21 => Walk { stays: |_, _| true, ..right },
        22 => Walk { is_capped: |_| true, ..right },
        26 => Walk { stays: |_, kept| kept > 0, ..right },
        _ => right,
    }
}

/// Allots as a book with the fault does.
fn allot<const FAULT: usize>(words: &mut [u64], awards: &mut [u64], told: &mut [u64]) -> u64 {
    let cut = |tender: &mut Tender| walk::<FAULT>().cut(tender);
    match FAULT {
        13 | 14 => allot_changed(words, awards, told, uncap),
        18..=22 | 26.. => allot_accepted(words, awards, told, cut),
        23 => allot_changed(words, awards, told, shift_limits),
        24 => {
            allot_changed(&mut words.to_vec(), &mut [], told, uncap);
            Right::allot(words, awards, &mut [])
        }
        25 => allot_changed(words, awards, told, cut),
        _ => Right::allot(words, awards, told),
    }
}

/// Cuts the awards of each code, in the order of its places, so that they stay within its limit. In LA
/// they stay.
fn cut_awards(words: &[u64], awards: &mut [u64]) {
    let side = layout::tender_of(words).map(|tender| tender.terms.offer.side);
    if side != Some(Side::Invests) {
        return;
    }
    for (own, &limit) in awards.chunks_mut(10).zip(&words[LIMITS..WORDS]) {
        let mut left = if limit == 0 { u64::MAX } else { limit };
        for award in own {
            *award = left.min(*award);
            left -= *award;
        }
    }
}

/// What an opening that is refused with 19 or 20 gives by a book with the fault.
fn refused<const FAULT: usize>(result: u64, limits: &[u64]) -> u64 {
    let most = 999_999_999_999_999;
    match FAULT {
        15 if result == 19 && limits.iter().any(|&limit| limit > most) => 20,
        16 if result == OK && limits.contains(&most) => 20,
        _ => result,
    }
}

impl<const FAULT: usize> Book for Faulty<FAULT> {
    fn open(words: &mut [u64], message: &[u8], codes: &[u32], limits: &[u64]) -> u64 {
        let before = words.to_vec();
        let result = refused::<FAULT>(Right::open(words, message, codes, limits), limits);
        if result != OK {
            words.copy_from_slice(&before);
        }
        if FAULT == 8 && words.len() > WORDS && result == OK {
            words[WORDS] = 0;
        }
        result
    }

    fn receive(
        words: &mut [u64],
        message: &[u8],
        clock: (u64, u64),
        space: &mut [u8],
        told: &mut [u64],
    ) -> u64 {
        let mut all = [0; 18];
        let mut own = wide_enough::<FAULT>(space);
        let result = Right::receive(words, &taken::<FAULT>(message), clock, &mut own, &mut all);
        space.copy_from_slice(&own[..space.len()]);
        let length = all[0] as usize;
        let count = told.len().min(all.len());
        if result == OK && !(FAULT == 9 && told.len() < all.len()) {
            told[..count].copy_from_slice(&all[..count]);
        }
        match FAULT {
            0 if result == OK && all[1] == 0 => space[24] ^= 1,
            1 if result == OK && length < space.len() => space[length] ^= 1,
            2 if result == OK => hold_time(words, message),
            5 if result != OK && count > 0 => told[0] = 0,
            _ => (),
        }
        result
    }

    fn close(words: &mut [u64], clock: (u64, u64)) -> u64 {
        let result = Right::close(words, clock);
        if FAULT == 6 && result == 13 {
            words[STATE] = 1;
        }
        result
    }

    fn allot(words: &mut [u64], awards: &mut [u64], told: &mut [u64]) -> u64 {
        let result = allot::<FAULT>(words, awards, told);
        match FAULT {
            14 if result == OK => cut_awards(words, awards),
            3 if result == OK => move_cent(awards),
            4 if result == OK && told.len() > 1 => told[0] = 1,
            _ => (),
        }
        result
    }

    fn preview(words: &mut [u64], awards: &mut [u64], told: &mut [u64]) -> u64 {
        previews::preview::<FAULT>(words, awards, told)
    }

    fn revoke(words: &mut [u64]) -> u64 {
        Right::revoke(words)
    }

    fn state(words: &[u64]) -> u64 {
        match Right::state(words) {
            NO_TENDER if FAULT == 7 && words.len() > STATE && words[STATE] < 4 => words[STATE],
            state => state,
        }
    }

    fn terms(words: &[u64], told: &mut [u64]) -> u64 {
        Right::terms(words, told)
    }

    fn codes(words: &[u64], told: &mut [u64]) -> u64 {
        Right::codes(words, told)
    }

    fn limits(words: &[u64], told: &mut [u64]) -> u64 {
        let result = Right::limits(words, told);
        if FAULT == 17 && result == OK && told.len() > 2 {
            told.swap(1, 2);
        }
        result
    }

    fn held(words: &[u64], code: u64, told: &mut [u64]) -> u64 {
        Right::held(words, code, told)
    }
}
