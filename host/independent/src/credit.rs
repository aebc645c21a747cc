//! Credit limits, by which the bids of a counterparty are cut before they share in what is offered.

use crate::award::{Amount, Offer, PlacedBid, Side};

/// The bids of one counterparty, cut so that their running total stays within the cap: those within
/// the limit rate are walked best first, equal rates by place, and each keeps what the cap leaves it.
/// A bid that is left nothing drops out. What the Treasury collects is not capped.
pub fn cut(offer: &Offer, mut bids: Vec<PlacedBid>, cap: Amount) -> Vec<PlacedBid> {
    if offer.side == Side::Collects {
        return bids;
    }
    bids.retain(|placed| offer.is_in(placed.bid.rate));
    bids.sort_unstable_by(|a, b| offer.order(a, b));
    let mut left = cap.0;
    bids.retain_mut(|placed| {
        let before = placed.bid.amount.0;
        let kept = before.min(left);
        left -= kept;
        placed.bid.amount = Amount(kept);
        // A bid of no amount is not cut, so that it stays.
        kept > 0 || before == 0
    });
    bids
}

#[cfg(test)]
mod tests {
    use super::*;
    use crate::award::{Bid, Rate};

    /// What is left of bids of rates and amounts, by their places, where the limit rate is 1000.
    fn left(side: Side, cap: u64, bids: &[(u32, u64)]) -> Vec<(usize, u64)> {
        let offer = Offer { side, amount: Amount(1), limit: Rate(1000) };
        let bid = |&(rate, amount)| Bid { rate: Rate(rate), amount: Amount(amount) };
        let placed = bids.iter().map(bid).enumerate();
        let placed = placed.map(|(position, bid)| PlacedBid { position, bid }).collect();
        let mut left = cut(&offer, placed, Amount(cap));
        left.sort_by_key(|placed| placed.position);
        left.iter().map(|placed| (placed.position, placed.bid.amount.0)).collect()
    }

    #[test]
    fn a_smaller_later_bid_is_not_taken() {
        let bids = [(3000, 40), (2000, 30), (1000, 10)];
        assert_eq!(left(Side::Invests, 50, &bids), [(0, 40), (1, 10)]);
    }

    #[test]
    fn the_best_rate_comes_first_wherever_it_stands() {
        let bids = [(1000, 40), (3000, 30), (2000, 20)];
        assert_eq!(left(Side::Invests, 60, &bids), [(0, 10), (1, 30), (2, 20)]);
        assert_eq!(left(Side::Invests, 40, &bids), [(1, 30), (2, 10)]);
        assert_eq!(left(Side::Invests, 1, &bids), [(1, 1)]);
    }

    #[test]
    fn equal_rates_go_by_place() {
        let bids = [(2000, 40), (2000, 30), (2000, 20)];
        assert_eq!(left(Side::Invests, 50, &bids), [(0, 40), (1, 10)]);
    }

    #[test]
    fn a_cap_that_is_met_exactly_drops_what_follows() {
        let bids = [(2000, 40), (2000, 30), (2000, 20)];
        assert_eq!(left(Side::Invests, 40, &bids), [(0, 40)]);
        assert_eq!(left(Side::Invests, 70, &bids), [(0, 40), (1, 30)]);
        assert_eq!(left(Side::Invests, 90, &bids), [(0, 40), (1, 30), (2, 20)]);
        assert_eq!(left(Side::Invests, 91, &bids), [(0, 40), (1, 30), (2, 20)]);
    }

    #[test]
    fn any_number_is_a_cap() {
        let bids = [(2000, u64::MAX), (2000, u64::MAX), (1000, 1)];
        assert_eq!(left(Side::Invests, u64::MAX, &bids), [(0, u64::MAX)]);
        assert_eq!(left(Side::Invests, u64::MAX - 1, &bids), [(0, u64::MAX - 1)]);
    }

    #[test]
    fn bids_outside_the_limit_rate_are_not_walked() {
        let bids = [(999, 40), (1000, 30)];
        assert_eq!(left(Side::Invests, 50, &bids), [(1, 30)]);
    }

    #[test]
    fn a_bid_of_no_amount_is_not_cut() {
        let bids = [(2000, 0), (2000, 10), (2000, 10), (1000, 0)];
        assert_eq!(left(Side::Invests, 10, &bids), [(0, 0), (1, 10), (3, 0)]);
    }

    #[test]
    fn a_bid_of_no_amount_is_in_line_for_a_cent() {
        let offer = Offer { side: Side::Invests, amount: Amount(11), limit: Rate(100_000) };
        let placed = |(position, amount)| PlacedBid {
            position,
            bid: Bid { rate: Rate(120_000), amount: Amount(amount) },
        };
        let mut bids = cut(&offer, [(0, 0), (1, 10)].map(placed).to_vec(), Amount(1000));
        bids.push(placed((10, 10)));
        let awards = offer.allot(&mut bids).awards;
        assert_eq!([0, 1, 10].map(|position| awards[position].0), [1, 5, 5]);
    }

    #[test]
    fn nothing_is_cut_where_the_treasury_collects() {
        let bids = [(1000, 40), (2000, 30), (0, 20)];
        assert_eq!(left(Side::Collects, 1, &bids), [(0, 40), (1, 30), (2, 20)]);
    }
}
