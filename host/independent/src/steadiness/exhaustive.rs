//! All small lists of bids under all offers, with each bid raised by each small d.

use crate::award::{Amount, Bid, Offer, PlacedBid, Rate};
use crate::steadiness::shown::{Shown, SIDES};
use crate::steadiness::tally::Tally;
use crate::steadiness::{beside, Allotted, Beside, Pair};

/// How many bids the lists have, and up to which amount.
pub const SIZES: [(usize, u64); 3] = [(2, 16), (3, 5), (4, 3)];
/// The highest d.
pub const MOST_D: usize = 4;
/// The rates of the bids, each of which is the limit rate in turn.
const RATES: [Rate; 3] = [Rate(1000), Rate(2000), Rate(3000)];

/// What the lists gave.
#[derive(Default)]
pub struct Exhaustive {
    /// One for each d from 1 on.
    pub tallies: [Tally; MOST_D],
    pub shown: Shown,
}

impl Exhaustive {
    /// Compares all lists of so many bids with amounts from 1 to the most.
    pub fn compare(&mut self, length: usize, most: u64) -> Result<(), String> {
        let choices = RATES.len() as u64 * most;
        for number in 0..choices.pow(length as u32) {
            let bids = list(number, length, most);
            for offer in offers(&bids) {
                self.raise_each(&Allotted::new(offer, bids.clone()))?;
            }
        }
        Ok(())
    }

    fn raise_each(&mut self, first: &Allotted) -> Result<(), String> {
        for raised in 0..first.bids.len() {
            for (tally, d) in self.tallies.iter_mut().zip(1..) {
                tally.add(&Pair::new(first, raised, d), &mut self.shown)?;
            }
        }
        Ok(())
    }

    /// What should have been seen and was not.
    pub fn missing(&self) -> Vec<String> {
        let mut missing = self.shown.missing();
        for (tally, d) in self.tallies.iter().zip(1..) {
            missing.extend(tally.missing().into_iter().map(|text| format!("d {d}: {text}")));
        }
        missing
    }
}

/// The list of this number, of which the amounts and the rates are digits.
fn list(number: u64, length: usize, most: u64) -> Vec<PlacedBid> {
    let mut rest = number;
    let mut digit = |base: u64| {
        let digit = rest % base;
        rest /= base;
        digit
    };
    let mut bid = || {
        let amount = Amount(1 + digit(most));
        Bid { rate: RATES[digit(RATES.len() as u64) as usize], amount }
    };
    (0..length).map(|position| PlacedBid { position, bid: bid() }).collect()
}

/// The offers in LA and LP with each limit rate, of every amount up to one that no raise reaches.
fn offers(bids: &[PlacedBid]) -> impl Iterator<Item = Offer> + '_ {
    let limits = SIDES.into_iter().flat_map(|side| RATES.map(|limit| (side, limit)));
    limits.flat_map(|(side, limit)| {
        let is_in = |bid: &&PlacedBid| beside(side, bid.bid.rate, limit) != Beside::Worse;
        let total: u64 = bids.iter().filter(is_in).map(|placed| placed.bid.amount.0).sum();
        let amounts = 1..=total + MOST_D as u64 + 1;
        amounts.map(move |amount| Offer { side, amount: Amount(amount), limit })
    })
}

#[cfg(test)]
mod tests {
    use super::*;
    use crate::award::Side;
    use std::collections::BTreeSet;

    #[test]
    fn all_lists_are_made() {
        let lists = (0..36).map(|number| list(number, 2, 2));
        let told = |placed: &PlacedBid| (placed.position, placed.bid.rate, placed.bid.amount);
        let lists: BTreeSet<Vec<_>> = lists.map(|bids| bids.iter().map(told).collect()).collect();
        assert_eq!(lists.len(), 36);
        for bids in lists {
            assert_eq!(bids.iter().map(|bid| bid.0).collect::<Vec<_>>(), [0, 1]);
            assert!(bids.iter().all(|bid| RATES.contains(&bid.1)));
            assert!(bids.iter().all(|bid| (1..=2).contains(&bid.2 .0)));
        }
    }

    /// The amount of 3 is at the first rate, that of 2 at the last.
    #[test]
    fn offers_go_up_to_where_no_raise_reaches_them() {
        let bid = |rate, amount| Bid { rate, amount: Amount(amount) };
        let bids = [(0, bid(RATES[0], 3)), (1, bid(RATES[2], 2))];
        let bids = bids.map(|(position, bid)| PlacedBid { position, bid });
        let offers: Vec<Offer> = offers(&bids).collect();
        let amounts = |side, limit| -> Vec<u64> {
            let offers = offers.iter().filter(|offer| (offer.side, offer.limit) == (side, limit));
            offers.map(|offer| offer.amount.0).collect()
        };
        for (limit, collected, invested) in [(0, 8, 10), (1, 8, 7), (2, 10, 7)] {
            assert!(amounts(Side::Collects, RATES[limit]).into_iter().eq(1..=collected));
            assert!(amounts(Side::Invests, RATES[limit]).into_iter().eq(1..=invested));
        }
        assert_eq!(offers.len(), 50);
    }

    /// The totals of the bids in are 1, 2 and 3 on average, and an offer goes five above them.
    #[test]
    fn each_bid_of_each_list_is_raised_by_each_d() {
        let mut small = Exhaustive::default();
        assert_eq!(small.compare(2, 2), Ok(()));
        let counts = small.tallies.each_ref().map(|tally| tally.pairs);
        assert_eq!(counts, [2 * 36 * 2 * (6 + 7 + 8); MOST_D]);
    }

    #[test]
    fn lists_of_two_small_bids_miss_something() {
        let mut small = Exhaustive::default();
        assert_eq!(small.compare(2, 4), Ok(()));
        assert_eq!(small.tallies.each_ref().map(|tally| tally.greatest), [1, 2, 3, 4]);
        let missing = small.missing();
        let unmoved = |d: u64| format!("d {d}: LP, an award moved by d from the same rate");
        assert!(!missing.contains(&unmoved(2)) && missing.contains(&unmoved(3)));
        let kind = "LA, raised at the same rate, raised unserved then unserved, \
                    another unserved then unserved";
        assert!(missing.iter().any(|text| text == kind));
    }
}
