//! How far one bid can push another, request S-5: the awards of two lists of bids, as they stand
//! after the credit cuts, that are equal but for one bid's amount, which is d eurocents higher in the
//! second.
//!
//! The request lets another award differ by d + 1. It differs by at most d where the raised bid has
//! a better rate or the same one, and not at all where it has a worse one; both are tested here.
//! `exhaustive` compares all small lists, `drawn` compares random ones.

pub mod drawn;
pub mod exhaustive;
pub mod random;
pub mod shown;
pub mod tally;

use crate::award::{Amount, Offer, PlacedBid, Rate, Side};
use std::fmt::{self, Display, Formatter};

/// One rate beside another.
#[derive(Clone, Copy, Debug, PartialEq, Eq)]
pub enum Beside {
    Better,
    Same,
    Worse,
}

impl Display for Beside {
    fn fmt(&self, out: &mut Formatter) -> fmt::Result {
        out.write_str(match self {
            Beside::Better => "a better rate",
            Beside::Same => "the same rate",
            Beside::Worse => "a worse rate",
        })
    }
}

/// What the first rate is beside the second.
pub fn beside(side: Side, first: Rate, second: Rate) -> Beside {
    let is_better = match side {
        Side::Collects => first < second,
        Side::Invests => first > second,
    };
    match (first == second, is_better) {
        (true, _) => Beside::Same,
        (_, true) => Beside::Better,
        _ => Beside::Worse,
    }
}

/// How far a bid is served, from the best on.
#[derive(Clone, Copy, Debug, PartialEq, Eq, PartialOrd, Ord)]
pub enum Standing {
    /// The offer serves all bids of its rate.
    Full,
    /// The offer serves a part of its rate.
    Shared,
    /// Better rates use up the offer.
    Unserved,
    /// Its rate is outside the limit rate.
    Out,
}

impl Display for Standing {
    fn fmt(&self, out: &mut Formatter) -> fmt::Result {
        out.write_str(match self {
            Standing::Full => "full",
            Standing::Shared => "shared",
            Standing::Unserved => "unserved",
            Standing::Out => "out",
        })
    }
}

/// The standing of the bids at a rate, by document 01's totals at better rates and at this one.
pub fn standing(offer: &Offer, bids: &[PlacedBid], rate: Rate) -> Standing {
    if beside(offer.side, rate, offer.limit) == Beside::Worse {
        return Standing::Out;
    }
    let (mut better, mut own) = (0, 0);
    for placed in bids {
        let amount = u128::from(placed.bid.amount.0);
        match beside(offer.side, placed.bid.rate, rate) {
            Beside::Better => better += amount,
            Beside::Same => own += amount,
            Beside::Worse => (),
        }
    }
    let offered = u128::from(offer.amount.0);
    if better + own <= offered {
        Standing::Full
    } else if better >= offered {
        Standing::Unserved
    } else {
        Standing::Shared
    }
}

/// A list of bids in book order, and what an offer gives it.
#[derive(Clone, Debug)]
pub struct Allotted {
    pub offer: Offer,
    pub bids: Vec<PlacedBid>,
    /// The award of each bid.
    pub awards: Vec<Amount>,
    /// The standing of each bid.
    pub standings: Vec<Standing>,
    pub marginal_rate: Option<Rate>,
}

impl Allotted {
    pub fn new(offer: Offer, bids: Vec<PlacedBid>) -> Allotted {
        let given = offer.allot(&mut bids.clone());
        let awards = bids.iter().map(|placed| given.awards[placed.position]).collect();
        let standing = |placed: &PlacedBid| standing(&offer, &bids, placed.bid.rate);
        let standings = bids.iter().map(standing).collect();
        Allotted { offer, bids, awards, standings, marginal_rate: given.marginal_rate }
    }

    /// Whether a bid's award is one that its standing allows.
    fn is_fitting(&self, index: usize) -> bool {
        let (award, amount) = (self.awards[index], self.bids[index].bid.amount);
        match self.standings[index] {
            Standing::Full => award == amount,
            Standing::Shared => award <= amount,
            Standing::Unserved | Standing::Out => award == Amount(0),
        }
    }
}

/// Two lists that are equal but for the raised bid's amount, which is d higher in the second.
#[derive(Debug)]
pub struct Pair<'a> {
    pub first: &'a Allotted,
    pub second: Allotted,
    /// Where the raised bid stands in the lists.
    pub raised: usize,
    pub d: u64,
}

impl<'a> Pair<'a> {
    pub fn new(first: &'a Allotted, raised: usize, d: u64) -> Pair<'a> {
        let mut bids = first.bids.clone();
        bids[raised].bid.amount.0 += d;
        Pair { first, second: Allotted::new(first.offer, bids), raised, d }
    }

    /// Where the bids stand that are not raised.
    pub fn others(&self) -> impl Iterator<Item = usize> + '_ {
        (0..self.first.bids.len()).filter(|&index| index != self.raised)
    }

    /// The raised bid's rate beside that of another.
    pub fn raised_beside(&self, other: usize) -> Beside {
        let rate = |index: usize| self.first.bids[index].bid.rate;
        beside(self.first.offer.side, rate(self.raised), rate(other))
    }

    /// By how much a bid's award differs between the two lists.
    pub fn difference(&self, index: usize) -> u64 {
        self.first.awards[index].0.abs_diff(self.second.awards[index].0)
    }

    /// The greatest difference of another bid's award.
    pub fn greatest_difference(&self) -> u64 {
        self.others().map(|other| self.difference(other)).max().unwrap_or(0)
    }
}

#[cfg(test)]
mod tests {
    use super::*;
    use crate::award::Bid;

    /// The list of these rates and amounts, allotted.
    fn allotted(side: Side, amount: u64, limit: u32, bids: &[(u32, u64)]) -> Allotted {
        let offer = Offer { side, amount: Amount(amount), limit: Rate(limit) };
        let bid = |&(rate, amount)| Bid { rate: Rate(rate), amount: Amount(amount) };
        let placed = bids.iter().map(bid).enumerate();
        let placed = placed.map(|(position, bid)| PlacedBid { position, bid });
        Allotted::new(offer, placed.collect())
    }

    fn awards(list: &Allotted) -> Vec<u64> {
        list.awards.iter().map(|award| award.0).collect()
    }

    #[test]
    fn the_best_rate_is_the_lowest_in_la_and_the_highest_in_lp() {
        let beside = |side, first, second| beside(side, Rate(first), Rate(second));
        assert_eq!(beside(Side::Collects, 1000, 2000), Beside::Better);
        assert_eq!(beside(Side::Collects, 2000, 1000), Beside::Worse);
        assert_eq!(beside(Side::Invests, 1000, 2000), Beside::Worse);
        assert_eq!(beside(Side::Invests, 2000, 1000), Beside::Better);
        assert_eq!(beside(Side::Collects, 1000, 1000), Beside::Same);
        assert_eq!(beside(Side::Invests, 0, 0), Beside::Same);
    }

    #[test]
    fn standings_change_where_the_totals_meet_the_offer() {
        use Standing::*;
        let bids = [(3000, 4), (2000, 3), (2000, 2), (1000, 1)];
        let standings = |amount| allotted(Side::Invests, amount, 2000, &bids).standings;
        assert_eq!(standings(3), [Shared, Unserved, Unserved, Out]);
        assert_eq!(standings(4), [Full, Unserved, Unserved, Out]);
        assert_eq!(standings(5), [Full, Shared, Shared, Out]);
        assert_eq!(standings(8), [Full, Shared, Shared, Out]);
        assert_eq!(standings(9), [Full, Full, Full, Out]);
        let collected = |amount| allotted(Side::Collects, amount, 2000, &bids).standings;
        assert_eq!(collected(1), [Out, Unserved, Unserved, Full]);
        assert_eq!(collected(5), [Out, Shared, Shared, Full]);
        assert_eq!(collected(6), [Out, Full, Full, Full]);
    }

    #[test]
    fn totals_of_fifteen_digits_do_not_wrap() {
        let most = 999_999_999_999_999;
        let bids = [(2000, most); 640];
        let standings = allotted(Side::Invests, most, 0, &bids).standings;
        assert!(standings.iter().all(|&standing| standing == Standing::Shared));
    }

    #[test]
    fn a_bid_of_the_same_rate_loses_all_of_d() {
        let first = allotted(Side::Invests, 2, 0, &[(1000, 1); 2]);
        let pair = Pair::new(&first, 0, 1);
        assert_eq!((awards(&first), awards(&pair.second)), (vec![1, 1], vec![2, 0]));
        assert_eq!(pair.greatest_difference(), 1);
        assert_eq!(pair.second.standings, [Standing::Shared; 2]);
    }

    #[test]
    fn a_bid_of_a_worse_rate_loses_all_of_d() {
        let first = allotted(Side::Collects, 30, 2000, &[(2000, 20), (1000, 10)]);
        let pair = Pair::new(&first, 1, 7);
        assert_eq!((awards(&first), awards(&pair.second)), (vec![20, 10], vec![13, 17]));
        assert_eq!((pair.raised_beside(0), pair.greatest_difference()), (Beside::Better, 7));
    }

    #[test]
    fn a_bid_of_a_better_rate_keeps_its_award() {
        let first = allotted(Side::Invests, 30, 0, &[(2000, 20), (1000, 10)]);
        let pair = Pair::new(&first, 1, 7);
        assert_eq!(awards(&pair.second), [20, 10]);
        assert_eq!((pair.raised_beside(0), pair.greatest_difference()), (Beside::Worse, 0));
    }

    /// The shares 1/2, 1/2 and 1 become 4/5, 2/5 and 4/5, so that two cents are left and not one.
    #[test]
    fn an_award_that_rises_by_a_cent_differs_too() {
        let first = allotted(Side::Invests, 2, 0, &[(1000, 1), (1000, 1), (1000, 2)]);
        let pair = Pair::new(&first, 0, 1);
        assert_eq!((awards(&first), awards(&pair.second)), (vec![1, 0, 1], vec![1, 1, 0]));
        assert_eq!([0, 1, 2].map(|index| pair.difference(index)), [0, 1, 1]);
    }

    #[test]
    fn the_raised_bid_is_not_compared() {
        let first = allotted(Side::Invests, 100, 0, &[(1000, 10), (1000, 20)]);
        let pair = Pair::new(&first, 0, 60);
        assert_eq!((awards(&pair.second), pair.difference(0)), (vec![70, 20], 60));
        assert_eq!((pair.others().collect::<Vec<_>>(), pair.greatest_difference()), (vec![1], 0));
    }

    #[test]
    fn bids_keep_their_positions_where_places_are_empty() {
        let bid = |amount| Bid { rate: Rate(1000), amount: Amount(amount) };
        let placed = [(7, 3), (630, 3), (639, 3)];
        let placed = placed.map(|(position, amount)| PlacedBid { position, bid: bid(amount) });
        let offer = Offer { side: Side::Invests, amount: Amount(7), limit: Rate(0) };
        let first = Allotted::new(offer, placed.to_vec());
        assert_eq!(awards(&first), [3, 2, 2]);
        assert_eq!(awards(&Pair::new(&first, 2, 3).second), [2, 2, 3]);
    }

    #[test]
    fn an_award_fits_its_standing() {
        let bids = [(3000, 4), (2000, 3), (1000, 2), (0, 1)];
        let list = allotted(Side::Invests, 6, 1000, &bids);
        assert_eq!(awards(&list), [4, 2, 0, 0]);
        for (index, unfit) in [(0, 3), (0, 5), (1, 4), (2, 1), (3, 1)] {
            let mut other = list.clone();
            assert!(other.is_fitting(index));
            other.awards[index] = Amount(unfit);
            assert!(!other.is_fitting(index));
        }
    }
}
