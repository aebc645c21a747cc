//! What the credit limits of a tender do in its allotment.

use crate::sessions::plan::MOST_AMOUNT;
use independent::application::PLACES;
use independent::award::{Allotment, PlacedBid, Rate, Side};
use independent::tender::{Tender, MOST_CODES};

/// The name of what limits do most.
pub const CUT: &str = "a bid cut";

/// What limits can do to the bids of a counterparty that has one.
const OF_CODE: [(&str, fn(&Cut) -> bool); 14] = [
    (CUT, |cut| cut.cut().next().is_some()),
    ("a bid cut to zero", |cut| cut.dropped().next().is_some()),
    ("a cut bid that shares", |cut| cut.cut().any(|placed| cut.allotted.has_part(placed))),
    ("a cut bid below the minimum", |cut| cut.has_less_than_minimum()),
    ("a limit that the bids meet", |cut| cut.cuts() && cut.cap == total(&cut.before)),
    ("a limit that a bid before the last meets", |cut| cut.is_met_early()),
    ("a limit above the bids", |cut| cut.cuts() && cut.is_above_bids()),
    ("a limit of sixteen digits", |cut| cut.cuts() && cut.cap > MOST_AMOUNT),
    ("a limit in LA", |cut| !cut.cuts() && cut.cap < total(&cut.before)),
    ("a cut between equal rates", |cut| cut.is_between_equal_rates()),
    ("a cut by another order than that of the places", |cut| cut.is_by_another_order()),
    ("a cut bid beside one outside the limit rate", |cut| cut.is_beside_one_outside()),
    ("a bid cut to zero before one that gets a cent", |cut| cut.is_before_a_cent()),
    ("a bid of no amount under a limit", |cut| cut.cuts() && cut.has_no_amount()),
];

/// The name of what is drawn again until it is shown.
pub const MOVED: &str = "cuts that move the marginal rate";

/// What limits can do in the whole of an allotment.
const OF_TENDER: [(&str, fn(&Allotted, &[Cut]) -> bool); 3] = [
    (MOVED, |allotted, _| {
        let [given, uncapped] = allotted.marginal_rates();
        given.is_some() && given != uncapped
    }),
    ("cuts that take the marginal rate away", |allotted, _| {
        let [given, uncapped] = allotted.marginal_rates();
        given.is_none() && uncapped.is_some()
    }),
    ("cuts among 64 codes", |allotted, cuts| {
        allotted.tender.book.len() == MOST_CODES && cuts.iter().any(Cut::is_cut)
    }),
];

/// What limits can do.
pub fn names() -> impl Iterator<Item = &'static str> {
    OF_CODE.iter().map(|of| of.0).chain(OF_TENDER.iter().map(|of| of.0))
}

/// A tender, its bids within the limit rate after the cuts, and what they are given.
struct Allotted<'a> {
    tender: &'a Tender,
    left: Vec<PlacedBid>,
    given: Allotment,
}

/// The bids of a counterparty that are within the limit rate, before and after the cuts.
struct Cut<'a> {
    allotted: &'a Allotted<'a>,
    rank: usize,
    cap: u64,
    before: Vec<PlacedBid>,
    after: Vec<PlacedBid>,
}

/// Which of the names the allotment or a preview of a tender shows.
pub fn shown(tender: &Tender) -> Vec<&'static str> {
    let Some(allotted) = Allotted::of(tender) else { return Vec::new() };
    let cuts = (0..tender.book.len()).filter_map(|rank| Cut::of(&allotted, rank));
    let cuts: Vec<Cut> = cuts.collect();
    let of_code = OF_CODE.iter().filter(|(_, is_shown)| cuts.iter().any(is_shown));
    let of_tender = OF_TENDER.iter().filter(|(_, is_shown)| is_shown(&allotted, &cuts));
    of_code.map(|of| of.0).chain(of_tender.map(|of| of.0)).collect()
}

fn total(bids: &[PlacedBid]) -> u64 {
    bids.iter().map(|placed| placed.bid.amount.0).sum()
}

impl Allotted<'_> {
    /// What the tender is or would be given, or none where that is refused.
    fn of(tender: &Tender) -> Option<Allotted<'_>> {
        let given = tender.preview().ok()?;
        let mut left = tender.cut_bids();
        left.retain(|placed| tender.terms.offer.is_in(placed.bid.rate));
        Some(Allotted { tender, left, given })
    }

    /// The marginal rate, and what it were if nobody had a limit.
    fn marginal_rates(&self) -> [Option<Rate>; 2] {
        let mut uncapped = self.tender.clone();
        uncapped.book.iter_mut().for_each(|holding| holding.cap = None);
        let uncapped = uncapped.preview().ok().and_then(|given| given.marginal_rate);
        [self.given.marginal_rate, uncapped]
    }

    fn award(&self, placed: &PlacedBid) -> u64 {
        self.given.awards[placed.position].0
    }

    /// Whether a bid gets something and not all that is left of it.
    fn has_part(&self, placed: &PlacedBid) -> bool {
        (1..placed.bid.amount.0).contains(&self.award(placed))
    }

    /// Whether a bid that is left at this rate, which is the marginal one in LP, gets a cent beyond its
    /// share.
    fn has_cent(&self, placed: &PlacedBid, rate: Rate) -> bool {
        let bids = self.left.iter().filter(|other| other.bid.rate >= rate).copied();
        let (equal, better): (Vec<_>, Vec<_>) = bids.partition(|other| other.bid.rate == rate);
        let left = u128::from(self.tender.terms.offer.amount.0 - total(&better));
        let amount = u128::from(placed.bid.amount.0);
        let share = (amount * left).checked_div(u128::from(total(&equal)));
        let award = u128::from(self.award(placed));
        placed.bid.rate == rate && share.is_some_and(|share| award > share)
    }
}

impl Cut<'_> {
    /// The bids of the counterparty of this rank, or none where it has no limit.
    fn of<'a>(allotted: &'a Allotted, rank: usize) -> Option<Cut<'a>> {
        let holding = &allotted.tender.book[rank];
        let offer = allotted.tender.terms.offer;
        let cap = holding.cap?.0;
        let is_own = |placed: &&PlacedBid| placed.position / PLACES == rank;
        let after = allotted.left.iter().filter(is_own).copied().collect();
        let before = holding.placed(rank).filter(|placed| offer.is_in(placed.bid.rate)).collect();
        Some(Cut { allotted, rank, cap, before, after })
    }

    /// Whether limits cut at all: what the Treasury collects is not capped.
    fn cuts(&self) -> bool {
        self.allotted.tender.terms.offer.side == Side::Invests
    }

    /// What is left of a bid, or none where it dropped out.
    fn left_of(&self, placed: &PlacedBid) -> Option<&PlacedBid> {
        self.after.iter().find(|after| after.position == placed.position)
    }

    /// The bids that were cut and are left, as they are left.
    fn cut(&self) -> impl Iterator<Item = &PlacedBid> {
        let left = self.before.iter().filter_map(|before| Some((before, self.left_of(before)?)));
        left.filter(|(before, after)| before != after).map(|(_, after)| after)
    }

    fn dropped(&self) -> impl Iterator<Item = &PlacedBid> {
        self.before.iter().filter(|before| self.left_of(before).is_none())
    }

    fn is_cut(&self) -> bool {
        self.cut().chain(self.dropped()).next().is_some()
    }

    fn has_less_than_minimum(&self) -> bool {
        self.cut().any(|placed| placed.bid.amount < self.allotted.tender.terms.minimum)
    }

    /// Whether the cap is met by a whole bid, with some after it.
    fn is_met_early(&self) -> bool {
        self.dropped().next().is_some() && self.cut().next().is_none() && !self.after.is_empty()
    }

    fn is_above_bids(&self) -> bool {
        (1..self.cap).contains(&total(&self.before))
    }

    /// Whether of the bids of one rate some stay whole and some do not.
    fn is_between_equal_rates(&self) -> bool {
        let bids = self.before.iter().copied();
        let (whole, other): (Vec<_>, Vec<_>) =
            bids.partition(|placed| self.left_of(placed) == Some(placed));
        other.iter().any(|other| whole.iter().any(|bid| bid.bid.rate == other.bid.rate))
    }

    /// Whether a bid is cut for one at a later place.
    fn is_by_another_order(&self) -> bool {
        let mut lost = self.before.iter().filter(|before| self.left_of(before) != Some(before));
        let first = lost.next().map(|placed| placed.position);
        first.is_some_and(|first| self.after.iter().any(|after| after.position > first))
    }

    fn is_beside_one_outside(&self) -> bool {
        let filled = self.allotted.tender.book[self.rank].placed(self.rank);
        self.is_cut() && filled.count() > self.before.len()
    }

    /// Whether a bid dropped out that would stand in line for a cent before one that gets it.
    fn is_before_a_cent(&self) -> bool {
        let Some(rate) = self.allotted.given.marginal_rate else { return false };
        let first = self.dropped().find(|placed| placed.bid.rate == rate);
        let is_later = |placed: &&PlacedBid| first.is_some_and(|a| a.position < placed.position);
        let mut later = self.allotted.left.iter().filter(is_later);
        later.any(|placed| self.allotted.has_cent(placed, rate))
    }

    fn has_no_amount(&self) -> bool {
        self.before.iter().any(|placed| placed.bid.amount.0 == 0)
    }
}
