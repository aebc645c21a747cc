//! How far other awards moved in the pairs that were compared.

use crate::award::Rate;
use crate::steadiness::shown::{name, unseen, Shown, SIDES};
use crate::steadiness::{Beside, Pair};

/// The rates from which a raised bid can move another award by all of d.
const MOVING: [Beside; 2] = [Beside::Better, Beside::Same];

/// The pairs that were compared, in none of which another award moved by more than d.
pub struct Tally {
    pub pairs: u64,
    /// The greatest difference of another award.
    pub greatest: u64,
    /// The greatest of such a difference less d; the lowest number before the first pair.
    pub beyond: i64,
    /// By side and rate, whether another award moved by all of d.
    reached: [[bool; MOVING.len()]; SIDES.len()],
}

impl Default for Tally {
    fn default() -> Tally {
        Tally { pairs: 0, greatest: 0, beyond: i64::MIN, reached: Default::default() }
    }
}

impl Tally {
    /// Adds a pair and what it shows, or tells what is wrong with it.
    pub fn add(&mut self, pair: &Pair, shown: &mut Shown) -> Result<(), String> {
        check_fit(pair)
            .and_then(|()| pair.others().try_for_each(|other| self.add_other(pair, other)))
            .and_then(|()| shown.see(pair))
            .map_err(|wrong| format!("{wrong}\n{}", text(pair)))?;
        let greatest = pair.greatest_difference();
        self.pairs += 1;
        self.greatest = self.greatest.max(greatest);
        self.beyond = self.beyond.max(greatest as i64 - pair.d as i64);
        Ok(())
    }

    fn add_other(&mut self, pair: &Pair, other: usize) -> Result<(), String> {
        let beside = pair.raised_beside(other);
        let difference = pair.difference(other);
        let most = if beside == Beside::Worse { 0 } else { pair.d };
        if difference > most {
            let number = other + 1;
            return Err(format!("the award of bid {number} moved by {difference}, above {most}"));
        }
        let side = pair.first.offer.side as usize;
        for (rate, reached) in MOVING.into_iter().zip(&mut self.reached[side]) {
            *reached |= beside == rate && difference == pair.d;
        }
        Ok(())
    }

    /// From which rates no award was moved by all of d.
    pub fn missing(&self) -> Vec<String> {
        let mut missing = Vec::new();
        for side in SIDES {
            let text = |rate| format!("{}, an award moved by d from {rate}", name(side));
            missing.extend(unseen(MOVING, self.reached[side as usize]).map(text));
        }
        missing
    }
}

/// The standings tell nothing where the awards are others than they allow.
fn check_fit(pair: &Pair) -> Result<(), String> {
    let is_unfit = |&index: &usize| !pair.first.is_fitting(index) || !pair.second.is_fitting(index);
    match (0..pair.first.bids.len()).find(is_unfit) {
        Some(index) => Err(format!("the award of bid {} does not fit its standing", index + 1)),
        None => Ok(()),
    }
}

/// The offer, the raised bid, the lists and what they get.
fn text(pair: &Pair) -> String {
    let (first, second, offer) = (pair.first, &pair.second, pair.first.offer);
    let rate = |rate: Option<Rate>| rate.map_or("none".to_string(), |rate| rate.0.to_string());
    let mut lines = vec![
        format!("{}, offered {}, limit rate {}", name(offer.side), offer.amount.0, offer.limit.0),
        format!("marginal rate {} then {}", rate(first.marginal_rate), rate(second.marginal_rate)),
        format!("raised bid {}, d {}", pair.raised + 1, pair.d),
    ];
    for (index, placed) in first.bids.iter().enumerate() {
        lines.push(format!(
            "bid {} at position {}: rate {}, amount {}, award {} then {}, {} then {}",
            index + 1,
            placed.position,
            placed.bid.rate.0,
            placed.bid.amount.0,
            first.awards[index].0,
            second.awards[index].0,
            first.standings[index],
            second.standings[index],
        ));
    }
    lines.join("\n")
}

/// A number with a comma before each group of three digits.
pub fn grouped(number: u64) -> String {
    let digits = number.to_string();
    let mut text = String::new();
    for (index, digit) in digits.chars().enumerate() {
        if index > 0 && (digits.len() - index) % 3 == 0 {
            text.push(',');
        }
        text.push(digit);
    }
    text
}

#[cfg(test)]
mod tests {
    use super::*;
    use crate::award::{Amount, Bid, Offer, PlacedBid, Side};
    use crate::steadiness::Allotted;

    /// A list of rates and amounts, of which the last stands at the last position.
    fn list(side: Side, offered: u64, bids: [(u32, u64); 2]) -> Allotted {
        let offer = Offer { side, amount: Amount(offered), limit: Rate(1000) };
        let bids = bids.map(|(rate, amount)| Bid { rate: Rate(rate), amount: Amount(amount) });
        let bids = [(0, bids[0]), (639, bids[1])];
        let placed = bids.map(|(position, bid)| PlacedBid { position, bid });
        Allotted::new(offer, placed.to_vec())
    }

    /// The lines that tell what is wrong where a bid of the second list has this award.
    fn told(first: &Allotted, raised: usize, index: usize, award: u64) -> Vec<String> {
        let mut pair = Pair::new(first, raised, 1);
        pair.second.awards[index] = Amount(award);
        let told = Tally::default().add(&pair, &mut Shown::default());
        told.err().map_or(Vec::new(), |text| text.lines().map(str::to_string).collect())
    }

    #[test]
    fn the_greatest_difference_is_kept() {
        let mut tally = Tally::default();
        let mut shown = Shown::default();
        let first = list(Side::Invests, 2, [(1000, 1); 2]);
        let steps = [(1, 1, 0, -1), (0, 3, 1, -1), (0, 1, 1, 0), (1, 1, 1, 0)];
        for (raised, d, greatest, beyond) in steps {
            assert_eq!(tally.add(&Pair::new(&first, raised, d), &mut shown), Ok(()));
            assert_eq!((tally.greatest, tally.beyond), (greatest, beyond));
        }
        assert_eq!(tally.pairs, 4);
    }

    #[test]
    fn a_tally_misses_what_did_not_move_by_d() {
        let mut tally = Tally::default();
        let all = [
            "LA, an award moved by d from a better rate",
            "LA, an award moved by d from the same rate",
            "LP, an award moved by d from a better rate",
            "LP, an award moved by d from the same rate",
        ];
        assert_eq!(tally.missing(), all);
        let same = list(Side::Collects, 2, [(1000, 1); 2]);
        assert_eq!(tally.add(&Pair::new(&same, 0, 1), &mut Shown::default()), Ok(()));
        assert_eq!(tally.missing(), [all[0], all[2], all[3]]);
        let better = list(Side::Invests, 2, [(2000, 1), (1000, 1)]);
        assert_eq!(tally.add(&Pair::new(&better, 0, 1), &mut Shown::default()), Ok(()));
        assert_eq!(tally.missing(), [all[0], all[3]]);
    }

    #[test]
    fn an_award_that_moves_by_more_than_d_is_told() {
        let first = list(Side::Invests, 20, [(1000, 10); 2]);
        assert!(told(&first, 0, 1, 9).is_empty());
        let lines = [
            "the award of bid 2 moved by 2, above 1",
            "LP, offered 20, limit rate 1000",
            "marginal rate 1000 then 1000",
            "raised bid 1, d 1",
            "bid 1 at position 0: rate 1000, amount 10, award 10 then 11, full then shared",
            "bid 2 at position 639: rate 1000, amount 10, award 10 then 8, full then shared",
        ];
        assert_eq!(told(&first, 0, 1, 8), lines);
    }

    #[test]
    fn an_award_that_rises_by_more_than_d_is_told() {
        let first = list(Side::Invests, 10, [(1000, 10); 2]);
        assert!(told(&first, 0, 1, 6).is_empty());
        assert_eq!(told(&first, 0, 1, 7)[0], "the award of bid 2 moved by 2, above 1");
    }

    #[test]
    fn an_award_that_a_worse_rate_moves_is_told() {
        let first = list(Side::Invests, 5, [(2000, 10), (1000, 10)]);
        assert!(told(&first, 1, 0, 5).is_empty());
        assert_eq!(told(&first, 1, 0, 6)[0], "the award of bid 1 moved by 1, above 0");
        assert_eq!(told(&first, 1, 0, 4)[0], "the award of bid 1 moved by 1, above 0");
    }

    #[test]
    fn an_award_that_does_not_fit_is_told() {
        let first = list(Side::Collects, 3, [(0, 10), (2000, 10)]);
        assert!(told(&first, 0, 1, 0).is_empty());
        assert_eq!(told(&first, 0, 0, 12)[0], "the award of bid 1 does not fit its standing");
        let told = told(&first, 0, 1, 1);
        assert_eq!(told[0], "the award of bid 2 does not fit its standing");
        assert_eq!(told[2], "marginal rate 0 then 0");
    }

    #[test]
    fn an_award_of_the_first_list_that_does_not_fit_is_told() {
        let mut first = list(Side::Invests, 10, [(2000, 10), (1000, 10)]);
        assert!(told(&first, 0, 1, 0).is_empty());
        first.awards[1] = Amount(1);
        assert_eq!(told(&first, 0, 1, 0)[0], "the award of bid 2 does not fit its standing");
    }

    #[test]
    fn numbers_are_grouped_by_thousands() {
        let texts = [0, 7, 999, 1000, 12_345, 123_456, 1_234_567].map(grouped);
        assert_eq!(texts, ["0", "7", "999", "1,000", "12,345", "123,456", "1,234,567"]);
    }
}
