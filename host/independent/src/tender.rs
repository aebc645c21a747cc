//! A tender from its announcement to its awards.

use crate::address::{self, Address};
use crate::announcement::Terms;
use crate::application::{Application, Field, PLACES};
use crate::award::{Allotment, Amount, Bid, PlacedBid, POSITIONS};
use crate::calendar::{Moment, Time};
use crate::credit;
use crate::errors::{ApplicationError as E, Errors};
use crate::refusal::Refusal;
use crate::reply;
use crate::rules;

/// The most counterparties that are admitted.
pub const MOST_CODES: usize = POSITIONS / PLACES;
const MOST_CENTS: u128 = 999_999_999_999_999_999;
/// The highest number of fifteen digits.
const MOST_LIMIT: u64 = 999_999_999_999_999;

/// Where a tender stands.
#[derive(Clone, Copy, Debug, PartialEq, Eq)]
pub enum State {
    Open,
    Closed,
    Announced,
    Revoked,
}

/// What the book holds for one counterparty.
#[derive(Clone, Debug, PartialEq, Eq)]
pub struct Holding {
    pub code: u32,
    /// The most that may be lent to it, or none where it is not capped.
    pub cap: Option<Amount>,
    pub time: Option<Time>,
    pub bids: [Bid; PLACES],
}

/// An opened tender with its book, which stands in rising order of the codes.
///
/// Its parts are public so that a comparison can set them as it sets those of another one.
#[derive(Clone, Debug, PartialEq, Eq)]
pub struct Tender {
    pub terms: Terms,
    pub state: State,
    pub book: Vec<Holding>,
}

/// What became of a message: it is accepted where there are no errors.
#[derive(Clone, Copy, Debug)]
pub struct Reception<'a> {
    /// The first five bytes of the sender, which tell who it is.
    pub sender: &'a [u8],
    pub errors: Errors,
    /// How many bytes the reply has.
    pub length: usize,
}

/// An award above zero.
#[derive(Clone, Copy, Debug, PartialEq, Eq)]
pub struct Award {
    pub code: u32,
    pub place: usize,
    pub bid: Bid,
    pub cents: u64,
}

fn are_admissible(codes: &[u32]) -> bool {
    (1..=MOST_CODES).contains(&codes.len())
        && codes.windows(2).all(|pair| pair[0] < pair[1])
        && codes.iter().all(|&code| code <= 99_999)
}

impl Holding {
    fn empty(code: u32, limit: u64) -> Holding {
        let cap = (limit > 0).then_some(Amount(limit));
        Holding { code, cap, time: None, bids: [Bid::ZERO; PLACES] }
    }

    /// The filled bids, with their positions in a book where this is the holding of this rank.
    pub fn placed(&self, rank: usize) -> impl Iterator<Item = PlacedBid> + '_ {
        let filled = self.bids.iter().enumerate().filter(|(_, bid)| bid.is_filled());
        filled.map(move |(place, &bid)| PlacedBid { position: rank * PLACES + place, bid })
    }
}

impl Tender {
    /// Opens a tender for an announcement, the admitted codes and their credit limits, zero for none.
    pub fn open(announcement: &[u8], codes: &[u32], limits: &[u64]) -> Result<Tender, Refusal> {
        let terms = Terms::read(announcement)?;
        Refusal::BadCodes.if_so(!are_admissible(codes))?;
        Refusal::LimitsMiscounted.if_so(limits.len() != codes.len())?;
        Refusal::LimitTooLong.if_so(limits.iter().any(|&limit| limit > MOST_LIMIT))?;
        let book = codes.iter().zip(limits).map(|(&code, &limit)| Holding::empty(code, limit));
        Ok(Tender { terms, state: State::Open, book: book.collect() })
    }

    fn open_at(&self, clock: Option<Moment>) -> Result<Moment, Refusal> {
        Refusal::Revoked.if_so(self.state == State::Revoked)?;
        Refusal::Over.if_so(self.state != State::Open)?;
        clock.ok_or(Refusal::ClockInvalid)
    }

    /// Receives a message and writes the reply at the start of the space, whose bytes past it stay;
    /// a clock that is no date and time is none.
    pub fn receive<'a>(
        &mut self,
        message: &'a [u8],
        clock: Option<Moment>,
        space: &mut [u8],
    ) -> Result<Reception<'a>, Refusal> {
        let received = self.open_at(clock)?;
        Refusal::ReplySpaceShort.if_so(space.len() < reply::LONGEST)?;
        let application = Application::read(message)?;
        let errors = self.enter(&application, received);
        let length = if errors.is_empty() {
            reply::confirm(&application, received.time, space)
        } else {
            reply::send_back(message, errors, space)
        };
        let sender = address::first_five(application.field(Field::Sender));
        Ok(Reception { sender, errors, length })
    }

    /// Collects the application's errors and, where there are none, holds its time and bids.
    fn enter(&mut self, application: &Application, received: Moment) -> Errors {
        let mut errors = Errors::default();
        rules::check_texts(&self.terms, application, &mut errors);
        rules::check_date(&self.terms, application, &mut errors);
        rules::check_reception(&self.terms, received, &mut errors);
        let position = self.admitted(application, &mut errors);
        let time = rules::check_time(application, &mut errors);
        let bids = rules::check_bids(&self.terms, application, &mut errors);
        if let (true, Some(position), Some(bids)) = (errors.is_empty(), position, bids) {
            let holding = &mut self.book[position];
            // None is before every time.
            if time > holding.time {
                holding.time = time;
                holding.bids = bids;
            } else {
                errors.add_if(E::Superseded, true);
            }
        }
        errors
    }

    /// Where the sender's code stands in the book, whatever its branch, or none with its error added.
    fn admitted(&self, application: &Application, errors: &mut Errors) -> Option<usize> {
        let Some(Address { code, .. }) = application.sender() else {
            errors.add_if(E::SenderMalformed, true);
            return None;
        };
        let position = self.position(code);
        errors.add_if(E::SenderNotAdmitted, position.is_none());
        position
    }

    /// Where the code stands in the book, or none where it is not admitted.
    fn position(&self, code: u64) -> Option<usize> {
        self.book.binary_search_by_key(&code, |holding| u64::from(holding.code)).ok()
    }

    /// What is held for a code, or none where it is not admitted.
    pub fn held(&self, code: u64) -> Option<&Holding> {
        self.position(code).map(|position| &self.book[position])
    }

    /// Closes the tender after its cut-off.
    pub fn close(&mut self, clock: Option<Moment>) -> Result<(), Refusal> {
        let now = self.open_at(clock)?;
        Refusal::BeforeCutOff.if_so(now <= self.terms.cut_off)?;
        self.state = State::Closed;
        Ok(())
    }

    /// Revokes the tender before it is announced.
    pub fn revoke(&mut self) -> Result<(), Refusal> {
        Refusal::Revoked.if_so(self.state == State::Revoked)?;
        Refusal::Announced.if_so(self.state == State::Announced)?;
        self.state = State::Revoked;
        Ok(())
    }

    /// Allots the closed tender and announces it.
    pub fn allot(&mut self) -> Result<Allotment, Refusal> {
        Refusal::StillOpen.if_so(self.state == State::Open)?;
        let given = self.preview()?;
        self.state = State::Announced;
        Ok(given)
    }

    /// Tells what allotting would give, of an open tender as if it were closed now.
    pub fn preview(&self) -> Result<Allotment, Refusal> {
        Refusal::Revoked.if_so(self.state == State::Revoked)?;
        Refusal::Announced.if_so(self.state == State::Announced)?;
        Refusal::BidsExceed.if_so(self.total() > MOST_CENTS)?;
        Ok(self.terms.offer.allot(&mut self.cut_bids()))
    }

    /// The total of the bids in the book, before any cut.
    fn total(&self) -> u128 {
        let bids = self.book.iter().flat_map(|holding| &holding.bids);
        bids.map(|bid| u128::from(bid.amount.0)).sum()
    }

    /// The bids of the book as the credit limits leave them.
    pub fn cut_bids(&self) -> Vec<PlacedBid> {
        let mut bids = Vec::with_capacity(self.book.len() * PLACES);
        for (rank, holding) in self.book.iter().enumerate() {
            match holding.cap {
                None => bids.extend(holding.placed(rank)),
                Some(cap) => {
                    let own = holding.placed(rank).collect();
                    bids.extend(credit::cut(&self.terms.offer, own, cap));
                }
            }
        }
        bids
    }

    /// The awards above zero, in book order.
    pub fn awards<'a>(&'a self, allotment: &'a Allotment) -> impl Iterator<Item = Award> + 'a {
        let awards = allotment.awards.iter().enumerate().filter(|(_, award)| award.0 > 0);
        awards.map(|(position, award)| {
            let holding = &self.book[position / PLACES];
            let place = position % PLACES;
            Award { code: holding.code, place: place + 1, bid: holding.bids[place], cents: award.0 }
        })
    }
}
