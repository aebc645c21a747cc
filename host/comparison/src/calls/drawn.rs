//! What the sequences must draw, for a book may be wrong just there.

use crate::addresses::shown::long_addresses;
use crate::calls::book::WORDS;
use crate::calls::cuts;
use crate::calls::independent_book::IndependentBook;
use crate::calls::layout::{self, AMOUNTS, CODES, COUNT, FORM, LIMITS, OFFERED, STATE};
use crate::calls::padded;
use crate::calls::step::{Call, Given, Step};
use crate::sessions::days::{day_after, day_before, seconds_away};
use crate::sessions::plan::MOST_AMOUNT;
use independent::application::Application;
use independent::award::{Side, POSITIONS};
use independent::refusal::Refusal;
use independent::tender::{State, Tender, MOST_CODES};
use std::collections::BTreeMap;

/// How often each boundary was drawn.
#[derive(Default)]
pub struct Drawn {
    pub counts: BTreeMap<&'static str, u64>,
}

impl Drawn {
    fn add(&mut self, what: &'static str, is_so: bool) {
        *self.counts.entry(what).or_default() += u64::from(is_so);
    }

    /// Counts what the steps of a sequence draw.
    pub fn count(&mut self, steps: &[Step]) {
        let mut words = padded::numbers(WORDS);
        for step in steps {
            let before = words.clone();
            step.sets.iter().for_each(|&(word, value)| words.all_mut()[word] = value);
            self.count_lent(step);
            let tender = layout::tender_of(words.first(WORDS));
            let given = step.call::<IndependentBook>(&mut words);
            if let Some(tender) = tender {
                self.count_call(step, &tender, &given);
            }
            if step.is_refused(given.result) {
                words = before;
            }
        }
    }

    /// Counts arrays, words, damage, limits and announcements with long addresses.
    fn count_lent(&mut self, step: &Step) {
        let set = |first: usize, last: usize| {
            step.sets.iter().any(|&(word, _)| (first..=last).contains(&word))
        };
        let long =
            if let Call::Open { message, .. } = &step.call { long_addresses(message) } else { 0 };
        self.add("an announcement with a long address", long == 1);
        self.add("an announcement with two long addresses", long == 2);
        self.add("fewer words", step.words < WORDS);
        self.add("one word fewer", step.words == WORDS - 1);
        self.add("more words", step.words > WORDS);
        self.add("another form", set(FORM, FORM));
        self.add("another state", set(STATE, STATE));
        self.add("another count", set(COUNT, COUNT));
        self.add("another offer", set(OFFERED, OFFERED));
        self.add("codes that do not rise", set(CODES, CODES + 63));
        self.add("amounts in the words", set(AMOUNTS, AMOUNTS + POSITIONS - 1));
        self.add("limits in the words", set(LIMITS, LIMITS + MOST_CODES - 1));
        self.count_limits(&step.call);
        self.add("an array that is short", step.numbers < step.call.told());
        self.add("an array that is long", step.numbers > step.call.told());
    }

    /// Counts the limits of an opening.
    fn count_limits(&mut self, call: &Call) {
        let Call::Open { codes, limits, .. } = call else { return };
        let (is_even, is_wide) =
            (limits.len() == codes.len(), limits.iter().any(|&limit| limit > MOST_AMOUNT));
        self.add("too few limits", limits.len() < codes.len());
        self.add("too many limits", limits.len() > codes.len());
        self.add("limits miscounted and too wide", !is_even && is_wide);
        self.add("a limit too wide", is_even && is_wide);
        self.add("a limit as wide as can be", is_even && limits.contains(&MOST_AMOUNT));
        self.add("nobody capped", is_even && limits.iter().all(|&limit| limit == 0));
        self.add("everybody capped", is_even && limits.iter().all(|&limit| limit > 0));
        self.add("64 limits", is_even && limits.len() == MOST_CODES);
    }

    fn count_call(&mut self, step: &Step, tender: &Tender, given: &Given) {
        let (result, reply) = (given.result, given.told.all().first().copied());
        match &step.call {
            Call::Receive { clock, message, space } => {
                self.add("a space of 435", *space == 435);
                self.add("a space of 436", *space == 436);
                self.add("a space under 59", *space < 59);
                self.add("a space that short addresses would do with", (418..436).contains(space));
                self.add("a reply of 436 bytes", result == 0 && reply == Some(436));
                self.add("a confirmation of 68 bytes", result == 0 && reply == Some(68));
                self.count_clock(*clock, tender);
                self.count_times(message, tender);
            }
            Call::Allot { places } => {
                self.add("room for fewer awards", *places < POSITIONS);
                self.add("announced and allotted again", tender.state == State::Announced);
                if result == 0 && *places >= POSITIONS {
                    self.count_awards(tender, &given.awards.all()[..POSITIONS]);
                }
            }
            Call::Preview { places } => {
                self.add("a preview with room for fewer awards", *places < POSITIONS);
                self.count_preview(tender, result);
            }
            Call::Revoke => self.add("revoked again", tender.state == State::Revoked),
            Call::Open { .. } => {
                self.add("a refused opening over a tender", result != 0);
                self.add("an opening over a tender", result == 0);
            }
            _ => (),
        }
    }

    /// Counts the states in which a tender is previewed, what refuses that, and bids that are cut in it.
    fn count_preview(&mut self, tender: &Tender, result: u64) {
        let state = tender.state;
        let closed = Tender { state: State::Closed, ..tender.clone() };
        let exceeds = closed.preview() == Err(Refusal::BidsExceed);
        self.add("an open tender previewed", state == State::Open && result == 0);
        self.add("a closed tender previewed", state == State::Closed && result == 0);
        self.add("16 in a preview of an open tender", state == State::Open && result == 16);
        self.add("15 before 16 in a preview", state == State::Announced && exceeds);
        self.add("8 before 16 in a preview", state == State::Revoked && exceeds);
        self.add("a preview of cut bids", cuts::shown(tender).contains(&cuts::CUT));
    }

    fn count_awards(&mut self, tender: &Tender, awards: &[u64]) {
        let offer = tender.terms.offer;
        let given: u64 = awards.iter().sum();
        self.add("all that is offered is given", given == offer.amount.0);
        self.add("less than is offered is given", given > 0 && given < offer.amount.0);
        self.add("LA allotted", offer.side == Side::Collects);
        self.add("LP allotted", offer.side == Side::Invests);
        let bids = || tender.book.iter().flat_map(|holding| holding.bids);
        let at_limit = bids().any(|bid| bid.is_filled() && bid.rate == offer.limit);
        self.add("a bid at the limit rate", at_limit);
        let is_out = bids().any(|bid| bid.is_filled() && !offer.is_in(bid.rate));
        self.add("a bid beyond the limit rate", is_out);
        let cuts = cuts::shown(tender);
        cuts::names().for_each(|name| self.add(name, cuts.contains(&name)));
    }

    fn count_clock(&mut self, clock: (u64, u64), tender: &Tender) {
        let (day, time) = (tender.terms.execution.number(), tender.terms.cut_off.time.number());
        self.add("the cut-off second", clock == (day, time));
        self.add("the second after", clock == (day, seconds_away(time, 1)) && time < 235_959);
        self.add("the day before", clock.0 == day_before(day));
        self.add("the day after", clock.0 == day_after(day));
    }

    /// Counts reference times beside the one that is held.
    fn count_times(&mut self, message: &[u8], tender: &Tender) {
        let Ok(application) = Application::read(message) else { return };
        let number = |field| application.number(field);
        let code = number(independent::application::Field::Sender);
        let time = number(independent::application::Field::ReferenceTime);
        let holding = code.and_then(|code| tender.held(code));
        let held = holding.and_then(|holding| holding.time).map(|time| time.number());
        self.add("an equal reference time", held.is_some() && time == held);
        self.add("a falling reference time", held.is_some() && time < held);
        let has_bids = holding.is_some_and(|holding| holding.bids[0].is_filled());
        let zero = application.places().is_some_and(|bids| bids.iter().all(|bid| !bid.is_filled()));
        self.add("a cancellation of bids", has_bids && zero && time > held);
    }
}
