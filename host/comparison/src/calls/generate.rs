//! Sequences of calls that aim at the boundaries of document 01's rules.

use crate::calls::book::WORDS;
use crate::calls::cuts;
use crate::calls::independent_book::IndependentBook;
use crate::calls::layout::{self, AMOUNTS, LIMITS, OFFERED};
use crate::calls::limits;
use crate::calls::padded;
use crate::calls::step::{Call, Step};
use crate::calls::twist;
use crate::random::Random;
use crate::sessions::days::{day_after, seconds_away};
use crate::sessions::generate::{announced, application, clock};
use crate::sessions::plan::{plan, Plan, Planned};
use independent::application::PLACES;
use independent::award::POSITIONS;
use independent::compose::Announcement;
use independent::tender::Tender;

/// The most eurocents that the bids of a book may have together.
const MOST_CENTS: u64 = 999_999_999_999_999_999;
/// Clocks that are no date and time, beyond what a log can have.
const ODD_CLOCKS: [(u64, u64); 6] = [
    (112_032_012, 103_000),
    (12_032_012, 1_103_000),
    (u64::MAX, u64::MAX),
    ((1 << 32) + 12_032_012, 103_000),
    (12_032_012, (1 << 32) + 103_000),
    (1 << 63, 0),
];

/// An allotment and a preview with room for all awards.
const ALLOTMENT: Call = Call::Allot { places: POSITIONS };
const PREVIEW: Call = Call::Preview { places: POSITIONS };

/// A sequence under way.
struct Sequence<'a> {
    random: &'a mut Random,
    steps: Vec<Step>,
    /// The codes of the tender that was opened last.
    codes: Vec<u32>,
}

/// The sequence with this seed.
pub fn sequence(seed: u64) -> Vec<Step> {
    let random = &mut Random::new(seed);
    let mut sequence = Sequence { random, steps: Vec::new(), codes: Vec::new() };
    if sequence.random.one_in(8) {
        // The words hold no tender yet.
        sequence.push_event(&Announcement::worked());
    }
    for _ in 0..sequence.random.pick(&[1, 1, 1, 2]) {
        sequence.push_tender();
    }
    sequence.steps
}

/// The tender that the steps leave, or none.
fn held_after(steps: &[Step]) -> Option<Tender> {
    let mut words = padded::numbers(WORDS);
    for step in steps {
        let before = words.clone();
        step.sets.iter().for_each(|&(word, value)| words.all_mut()[word] = value);
        let given = step.call::<IndependentBook>(&mut words);
        if step.is_refused(given.result) {
            words = before;
        }
    }
    layout::tender_of(words.first(WORDS))
}

impl Sequence<'_> {
    /// Pushes a call, often with something else lent to it than what it needs.
    fn push(&mut self, call: Call) {
        let mut step = Step::new(call);
        twist::lend(self.random, &mut step);
        if let Some(damaged) = twist::damage(self.random, &step, &self.codes) {
            self.steps.push(damaged);
        }
        if let Call::Open { codes, limits, message } = &step.call {
            if Tender::open(message, codes, limits).is_ok() {
                self.codes.clone_from(codes);
            }
        }
        self.steps.push(step);
    }

    fn push_tender(&mut self) {
        let mut plan = plan(self.random);
        let codes: Vec<u32> = plan.codes.iter().map(|&code| code as u32).collect();
        let limits = limits::limits(self.random, &plan);
        if !self.random.one_in(8) {
            limits::aim(self.random, &mut plan, &limits);
        }
        self.push_opening(&plan, &codes, &limits);
        let between = 8 + 2 * plan.applications.len() as u64;
        for planned in &plan.applications {
            self.push_reception(&plan.announcement, planned);
            if self.random.one_in(between) {
                self.push_event(&plan.announcement);
            }
        }
        self.push_end(&plan.announcement, codes.len());
    }

    /// Opens the tender, sometimes after openings that are refused.
    fn push_opening(&mut self, plan: &Plan, codes: &[u32], limits: &[u64]) {
        let opening = |codes: &[u32], limits: &[u64], message: &[u8]| Call::Open {
            codes: codes.to_vec(),
            limits: limits.to_vec(),
            message: message.to_vec(),
        };
        for _ in 0..self.random.pick(&[0, 0, 1, 2]) {
            let message = announced(self.random, &plan.announcement);
            self.push(opening(codes, limits, &message));
        }
        let message = plan.announcement.write();
        if self.random.one_in(10) {
            let codes = twist::codes(self.random, codes);
            self.push(opening(&codes, limits, &message));
        }
        if self.random.one_in(6) {
            let limits = twist::limits(self.random, limits);
            self.push(opening(codes, &limits, &message));
        }
        self.push(opening(codes, limits, &message));
    }

    fn clock(&mut self, announcement: &Announcement) -> (u64, u64) {
        if self.random.one_in(60) {
            return self.random.pick(&ODD_CLOCKS);
        }
        clock(self.random, announcement)
    }

    fn push_reception(&mut self, announcement: &Announcement, planned: &Planned) {
        let clock = self.clock(announcement);
        let message = application(self.random, announcement, planned);
        let space = twist::space(self.random);
        if space < twist::LEAST_SPACE && !self.random.one_in(4) {
            // What was refused for its space alone comes again.
            self.push(Call::Receive { clock, message: message.clone(), space });
            self.push(Call::Receive { clock, message, space: twist::LEAST_SPACE });
        } else {
            self.push(Call::Receive { clock, message, space });
        }
    }

    /// Closes, mostly a second after the cut-off, and allots, often with something between.
    fn push_end(&mut self, announcement: &Announcement, codes: usize) {
        let (day, cut_off) = (announcement.execution, announcement.cut_off);
        if self.random.one_in(4) {
            self.push(Call::Close { clock: (day, cut_off) });
        }
        let next = cut_off == 235_959 || self.random.one_in(4);
        let after = (day_after(day), self.random.pick(&[0, cut_off]));
        let clock = if next { after } else { (day, seconds_away(cut_off, 1)) };
        if self.random.one_in(6) {
            self.push_odd_words(&PREVIEW, codes);
        }
        self.push(Call::Close { clock });
        if self.random.one_in(6) {
            self.push_event(announcement);
        }
        self.push_odd_words(&ALLOTMENT, codes);
        let places = twist::places(self.random);
        self.push(Call::Allot { places });
        // An announced tender is asked again.
        for _ in 0..self.random.pick(&[0, 0, 1, 2]) {
            self.push_event(announcement);
        }
        if self.random.one_in(24) {
            self.push_full_book(&PREVIEW, codes);
        }
    }

    /// Mostly makes the call on a book with words that other calls bring there rarely or never.
    fn push_odd_words(&mut self, call: &Call, codes: usize) {
        match self.random.below(16) {
            0 | 1 => self.push_full_book(call, codes),
            2..=5 => self.push_no_amounts(call, codes),
            6 | 7 => self.push_odd_limits(call, codes),
            8 | 9 => self.push_near_limits(call),
            _ => (),
        }
    }

    /// Makes the call on a book with amounts in its words that no message can bring there.
    fn push_full_book(&mut self, call: &Call, codes: usize) {
        let places = (PLACES * codes).min(30);
        let rest: u64 = 1 + self.random.below(1_000_000_000_000_000);
        let mut amounts = vec![rest; places];
        let others = rest * (places as u64 - 1);
        amounts[self.random.index(places)] = MOST_CENTS - others;
        let index = self.random.index(places);
        match self.random.below(6) {
            0 | 1 => amounts[index] += 1,
            2 => amounts[index] = u64::MAX,
            // Their sum is small where it is taken within 64 bits.
            3 => amounts[..2].fill(1 << 63),
            _ => (),
        }
        let mut step = Step::new(call.clone());
        let words = amounts.iter().enumerate();
        step.sets = words.map(|(place, &amount)| (AMOUNTS + place, amount)).collect();
        if self.random.one_in(2) {
            step.sets.extend(twist::limit_words(self.random, codes));
        }
        self.steps.push(step);
    }

    /// Makes the call with zero for some of the amounts in the words, so that bids have a rate and no
    /// amount.
    fn push_no_amounts(&mut self, call: &Call, codes: usize) {
        let places = 0..(PLACES * codes).min(30);
        let mut step = Step::new(call.clone());
        let emptied = places.filter(|_| self.random.one_in(4));
        step.sets = emptied.map(|place| (AMOUNTS + place, 0)).collect();
        self.steps.push(step);
    }

    /// Asks for the limits or makes the call with limits in the words that no opening can bring there.
    fn push_odd_limits(&mut self, call: &Call, codes: usize) {
        let asks = self.random.one_in(2);
        let mut step = Step::new(if asks { Call::Limits } else { call.clone() });
        step.sets = twist::limit_words(self.random, codes);
        self.steps.push(step);
    }

    /// Makes the call with limits and an offer in the words that aim at what is held, and where they can
    /// move the marginal rate, which few books allow.
    fn push_near_limits(&mut self, call: &Call) {
        let Some(mut tender) = held_after(&self.steps) else { return };
        for _ in 0..8 {
            limits::cap(self.random, &mut tender);
            if cuts::shown(&tender).contains(&cuts::MOVED) {
                break;
            }
        }
        let mut step = Step::new(call.clone());
        let limits = tender.book.iter().map(layout::limit_number).enumerate();
        step.sets = limits.map(|(index, limit)| (LIMITS + index, limit)).collect();
        step.sets.push((OFFERED, tender.terms.offer.amount.0));
        self.steps.push(step);
    }

    /// A call that a tender may refuse, or that only looks.
    fn push_event(&mut self, announcement: &Announcement) {
        let clock = self.clock(announcement);
        let code = u64::from(self.codes.first().copied().unwrap_or(90_001));
        let codes = self.codes.clone();
        let call = match self.random.below(20) {
            0..=2 => Call::Close { clock },
            3 | 4 => Call::Revoke,
            5..=7 => Call::Allot { places: twist::places(self.random) },
            8 => {
                let message = vec![b'0'; self.random.pick(&[0, 1, 338, 339, 340, 348, 357, 678])];
                Call::Receive { clock, message, space: twist::space(self.random) }
            }
            9 => Call::Open { limits: vec![0; codes.len()], codes, message: Vec::new() },
            10 => Call::State,
            11 => Call::Terms,
            12 => Call::Codes,
            13 => Call::Limits,
            14..=16 => Call::Preview { places: twist::places(self.random) },
            _ => Call::Held { code: code + self.random.pick(&[0, 0, 1, 2, 1 << 32]) },
        };
        if call != Call::Revoke {
            return self.push(call);
        }
        // A revoked tender is asked again.
        self.push(call);
        if self.random.one_in(4) {
            self.push(Call::Revoke);
        }
        if self.random.one_in(3) {
            self.push_full_book(&PREVIEW, self.codes.len().max(1));
        }
        for _ in 0..self.random.below(3) {
            self.push_event(announcement);
        }
    }
}
