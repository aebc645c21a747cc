//! What is rare in a session and must be drawn all the same, for a book may be wrong just there.

use crate::addresses::shown::{long_addresses, Shown, NAMES};
use independent::announcement::Terms;
use independent::application::{Application, Field, PLACES};
use independent::award::{Bid, Side};
use independent::envelope::split_field;
use independent::session::{Journal, ANNOUNCEMENT, RECEPTION};
use std::collections::BTreeMap;

/// How often each rare thing was drawn, the terms that were announced last, and what the addresses
/// showed since.
#[derive(Default)]
pub struct Drawn {
    pub counts: BTreeMap<&'static str, u64>,
    terms: Option<Terms>,
    addresses: Shown,
}

impl Drawn {
    fn add(&mut self, what: &'static str, is_so: bool) {
        *self.counts.entry(what).or_default() += u64::from(is_so);
    }

    /// Counts what a session's announcements and receptions draw until its log ends.
    pub fn count(&mut self, session: &[u8]) {
        let mut journal = Journal::new();
        let mut rest = session;
        while let Some((tag, contents, after)) = split_field(rest) {
            let mut line = Vec::new();
            if journal.step(tag, contents, &mut line).is_break() {
                return;
            }
            let long = if tag == ANNOUNCEMENT { long_addresses(contents) } else { 0 };
            self.add("announcement with a long address", long == 1);
            self.add("announcement with two long addresses", long == 2);
            match tag {
                ANNOUNCEMENT if line.is_empty() => self.announced(contents),
                RECEPTION => self.received(contents.split_at(14), &line),
                _ => (),
            }
            rest = after;
        }
    }

    fn announced(&mut self, message: &[u8]) {
        let Ok(terms) = Terms::read(message) else { return };
        let (identifier_year, execution_year) = (&message[61..65], &message[98..102]);
        self.add("identifier of the year 0000", identifier_year == b"0000");
        self.add("identifier of another year", identifier_year != execution_year);
        self.add("minimum above the amount offered", terms.minimum > terms.offer.amount);
        self.add("minimum allocation", message[170..185] != *b"000000000000000");
        let limit = terms.offer.limit.0;
        let is_la = terms.offer.side == Side::Collects;
        self.add("LA, limit rate of five decimals", is_la && limit % 1000 != 0);
        self.add("LP, limit rate of five decimals", !is_la && limit % 1000 != 0);
        self.add("LA, limit rate of zero", is_la && limit == 0);
        self.add("LP, limit rate of zero", !is_la && limit == 0);
        self.terms = Some(terms);
        self.addresses.open();
    }

    fn received(&mut self, (clock, message): (&[u8], &[u8]), line: &[u8]) {
        let Ok(application) = Application::read(message) else { return };
        self.addressed(&application, line);
        let malformed = (0..PLACES).filter(|&place| application.place(place).is_none()).count();
        self.add("two places malformed", malformed == 2);
        let time = &clock[8..];
        self.add("received before ten o'clock", time[0] == b'0' && time != b"000000");
        self.add("blank contact name", application.field(Field::Name) == [b' '; 15]);
        if let Some(bids) = application.places() {
            let filled = bids.iter().filter(|bid| bid.is_filled()).count();
            self.add("only the tenth place filled", filled == 1 && bids[9].is_filled());
            self.totalled(&bids);
        }
    }

    /// Counts what the addresses show, with the errors of the line that matter for them.
    fn addressed(&mut self, application: &Application, line: &[u8]) {
        let has = |text: &[u8]| line.windows(text.len()).any(|part| part == text);
        // A reception that is skipped has no line.
        if line.is_empty() || line.starts_with(b"R -----") {
            return;
        }
        let errors: &[u64] = if line.starts_with(b"C ") {
            &[]
        } else if has(b"040 - 309") {
            &[309]
        } else if has(b"601 - 302") {
            &[302]
        } else {
            &[999]
        };
        let shown = self.addresses.of(application, errors);
        NAMES.into_iter().zip(shown).for_each(|(name, is_so)| self.add(name, is_so));
    }

    /// Counts totals that are above the maximum by some of the bids alone.
    fn totalled(&mut self, bids: &[Bid; PLACES]) {
        let Some(terms) = &self.terms else { return };
        let Some(maximum) = terms.maximum else { return };
        let total = |counts: &dyn Fn(&Bid) -> bool| -> u64 {
            bids.iter().filter(|bid| counts(bid)).map(|bid| bid.amount.0).sum()
        };
        let above = total(&|_| true) > maximum.0;
        let by_limit = above && total(&|bid| terms.offer.is_in(bid.rate)) <= maximum.0;
        let by_rate = above && total(&|bid| bid.rate.0 % 1000 == 0) <= maximum.0;
        let by_amount = above && total(&|bid| bid.amount >= terms.minimum) <= maximum.0;
        self.add("above the maximum by a bid out of the limit rate", by_limit);
        self.add("above the maximum by a fine rate", by_rate);
        self.add("above the maximum by an amount below the minimum", by_amount);
    }
}
