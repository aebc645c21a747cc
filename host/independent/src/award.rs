//! Bids, and the awards that an offer gives them.

use std::cmp::Ordering;

/// A rate in hundred-thousandths of a percent.
#[derive(Clone, Copy, Debug, PartialEq, Eq, PartialOrd, Ord)]
pub struct Rate(pub u32);

/// An amount in eurocents.
#[derive(Clone, Copy, Debug, PartialEq, Eq, PartialOrd, Ord)]
pub struct Amount(pub u64);

/// What stands at a place of an application.
#[derive(Clone, Copy, Debug, PartialEq, Eq)]
pub struct Bid {
    pub rate: Rate,
    pub amount: Amount,
}

impl Bid {
    /// A place that is not used.
    pub const ZERO: Bid = Bid { rate: Rate(0), amount: Amount(0) };

    /// Whether the place is filled, and so is a bid.
    pub fn is_filled(&self) -> bool {
        *self != Bid::ZERO
    }
}

/// What the Treasury does with the money.
#[derive(Clone, Copy, Debug, PartialEq, Eq)]
pub enum Side {
    /// LA: the lowest rate is best.
    Collects,
    /// LP: the highest rate is best.
    Invests,
}

/// What is shared among the bids.
#[derive(Clone, Copy, Debug, PartialEq, Eq)]
pub struct Offer {
    pub side: Side,
    pub amount: Amount,
    pub limit: Rate,
}

/// A bid with its position in book order.
#[derive(Clone, Copy, Debug, PartialEq, Eq)]
pub struct PlacedBid {
    pub position: usize,
    pub bid: Bid,
}

/// The positions of a book: 64 codes with ten places each.
pub const POSITIONS: usize = 640;

/// What allotting gives.
#[derive(Clone, Debug, PartialEq, Eq)]
pub struct Allotment {
    pub awards: [Amount; POSITIONS],
    pub marginal_rate: Option<Rate>,
}

impl Offer {
    /// Which of two bids comes first: the better rate, and of equal rates the first place.
    pub fn order(&self, a: &PlacedBid, b: &PlacedBid) -> Ordering {
        self.best_first(a.bid.rate, b.bid.rate).then(a.position.cmp(&b.position))
    }

    fn best_first(&self, a: Rate, b: Rate) -> Ordering {
        match self.side {
            Side::Collects => a.cmp(&b),
            Side::Invests => b.cmp(&a),
        }
    }

    /// Whether a bid at this rate is in.
    pub fn is_in(&self, rate: Rate) -> bool {
        self.best_first(rate, self.limit) != Ordering::Greater
    }

    /// Awards the offer to the filled bids and orders them best first.
    pub fn allot(&self, bids: &mut Vec<PlacedBid>) -> Allotment {
        bids.retain(|placed| self.is_in(placed.bid.rate));
        bids.sort_unstable_by(|a, b| self.order(a, b));
        let mut allotment = Allotment { awards: [Amount(0); POSITIONS], marginal_rate: None };
        let mut left = u128::from(self.amount.0);
        for at_rate in bids.chunk_by(|a, b| a.bid.rate == b.bid.rate) {
            let total = total_of(at_rate);
            if total >= left {
                allotment.marginal_rate = Some(at_rate[0].bid.rate);
                share(&mut allotment.awards, at_rate, left, total);
                break;
            }
            for placed in at_rate {
                allotment.awards[placed.position] = placed.bid.amount;
            }
            left -= total;
        }
        allotment
    }
}

fn total_of(bids: &[PlacedBid]) -> u128 {
    bids.iter().map(|placed| u128::from(placed.bid.amount.0)).sum()
}

/// Shares what is left among the bids of one rate, and the cents over one each in book order.
fn share(awards: &mut [Amount; POSITIONS], bids: &[PlacedBid], left: u128, total: u128) {
    let mut cents = left;
    for placed in bids {
        let part = u128::from(placed.bid.amount.0) * left / total;
        awards[placed.position] = Amount(part as u64);
        cents -= part;
    }
    for placed in &bids[..cents as usize] {
        awards[placed.position].0 += 1;
    }
}

#[cfg(test)]
mod tests {
    use super::*;

    fn awards(side: Side, amount: u64, limit: u32, bids: &[(u32, u64)]) -> (Vec<u64>, Option<u32>) {
        let offer = Offer { side, amount: Amount(amount), limit: Rate(limit) };
        let mut placed = Vec::new();
        for (position, &(rate, amount)) in bids.iter().enumerate() {
            placed.push(PlacedBid {
                position,
                bid: Bid { rate: Rate(rate), amount: Amount(amount) },
            });
        }
        let given = offer.allot(&mut placed);
        assert!(given.awards[bids.len()..].iter().all(|award| award.0 == 0));
        let list = given.awards[..bids.len()].iter().map(|award| award.0).collect();
        (list, given.marginal_rate.map(|rate| rate.0))
    }

    #[test]
    fn m5_the_limit_rate_is_in() {
        let bids = [(100_000, 10_000), (99_000, 10_000)];
        assert_eq!(awards(Side::Invests, 100_000, 100_000, &bids), (vec![10_000, 0], None));
        assert_eq!(awards(Side::Collects, 100_000, 99_000, &bids), (vec![0, 10_000], None));
    }

    #[test]
    fn m7_shares_at_the_marginal_rate() {
        let bids = [(120_000, 50_000), (150_000, 60_000), (120_000, 40_000)];
        let given = awards(Side::Invests, 100_000, 100_000, &bids);
        assert_eq!(given, (vec![22_223, 60_000, 17_777], Some(120_000)));
    }

    #[test]
    fn m8_an_even_share() {
        let given = awards(Side::Invests, 15_000, 0, &[(1000, 10_000); 2]);
        assert_eq!(given, (vec![7500, 7500], Some(1000)));
    }

    #[test]
    fn m9_cents_by_book_order() {
        let given = awards(Side::Invests, 10_000, 0, &[(1000, 10_000); 3]);
        assert_eq!(given, (vec![3334, 3333, 3333], Some(1000)));
    }

    #[test]
    fn the_lowest_rate_is_best_when_collecting() {
        let bids = [(2000, 10), (1000, 10), (0, 10), (3000, 10)];
        assert_eq!(awards(Side::Collects, 25, 2000, &bids), (vec![5, 10, 10, 0], Some(2000)));
        assert_eq!(awards(Side::Invests, 25, 2000, &bids), (vec![10, 0, 0, 10], None));
    }

    #[test]
    fn the_marginal_rate_is_where_the_offer_is_reached() {
        let bids = [(3000, 10), (2000, 10), (1000, 10)];
        assert_eq!(awards(Side::Invests, 20, 0, &bids), (vec![10, 10, 0], Some(2000)));
        assert_eq!(awards(Side::Invests, 21, 0, &bids), (vec![10, 10, 1], Some(1000)));
        assert_eq!(awards(Side::Invests, 31, 0, &bids), (vec![10, 10, 10], None));
        assert_eq!(awards(Side::Invests, 31, 0, &[]), (vec![], None));
        assert_eq!(awards(Side::Collects, 5, 0, &[(0, 10)]), (vec![5], Some(0)));
    }

    #[test]
    fn fifteen_digit_amounts_do_not_wrap() {
        let most = 999_999_999_999_999;
        let given = awards(Side::Invests, most, 0, &[(99_999_000, most); 640]);
        let each = most / 640;
        let over = (most % 640) as usize;
        assert_eq!(given.0.iter().sum::<u64>(), most);
        assert!(given.0[..over].iter().all(|&award| award == each + 1));
        assert!(given.0[over..].iter().all(|&award| award == each));
    }

    #[test]
    fn an_exact_share_gets_its_cent_too() {
        let given = awards(Side::Invests, 4, 0, &[(1000, 3), (1000, 2), (1000, 1)]);
        assert_eq!(given.0, vec![3, 1, 0]);
    }
}
