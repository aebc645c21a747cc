//! Random lists of bids of every size, some of them as credit limits leave them.

use crate::application::PLACES;
use crate::award::{Amount, Bid, Offer, PlacedBid, Rate, Side};
use crate::credit;
use crate::steadiness::random::Random;
use crate::steadiness::shown::{Shown, SIDES};
use crate::steadiness::tally::Tally;
use crate::steadiness::{beside, Allotted, Beside, Pair};
use std::iter;
use std::ops::RangeInclusive;

pub const DEFAULT_SEED: u64 = 20_120_312;
/// How many pairs are compared.
pub const COUNT: usize = 500_000;

/// The highest amount of fifteen digits.
const MOST: u64 = 999_999_999_999_999;
const MOST_DIGITS: u64 = 15;
const MOST_BIDS: u64 = 20;
const MOST_RATES: u64 = 5;
/// The highest rate that a bid can have.
const MOST_RATE: u32 = 99_999_000;
/// How far a bid's position can be from the one before; ten places belong to one counterparty.
const STEPS: [usize; 5] = [1, 1, 2, 10, 31];

/// What the lists gave.
#[derive(Default)]
pub struct Drawn {
    pub tally: Tally,
    pub shown: Shown,
    /// How many of the lists are what credit limits left of others.
    pub cut: u64,
}

/// A list as it stands after the credit cuts, an offer, and which bid is raised by how much.
#[derive(Clone, Debug, PartialEq, Eq)]
pub struct Case {
    pub offer: Offer,
    pub bids: Vec<PlacedBid>,
    pub is_cut: bool,
    pub raised: usize,
    pub d: u64,
}

impl Drawn {
    /// Compares so many pairs of lists.
    pub fn compare(&mut self, seed: u64, count: usize) -> Result<(), String> {
        for case in cases(seed).take(count) {
            let first = Allotted::new(case.offer, case.bids);
            self.tally.add(&Pair::new(&first, case.raised, case.d), &mut self.shown)?;
            self.cut += u64::from(case.is_cut);
        }
        Ok(())
    }

    /// What should have been seen and was not.
    pub fn missing(&self) -> Vec<String> {
        let mut missing = self.shown.missing();
        missing.extend(self.tally.missing());
        if self.cut == 0 {
            missing.push("a list that credit limits cut".to_string());
        }
        missing
    }
}

/// The cases of a seed, without end.
pub fn cases(seed: u64) -> impl Iterator<Item = Case> {
    let mut random = Random::new(seed);
    iter::repeat_with(move || draw_case(&mut random)).flatten()
}

/// A case, or none where no bid besides another is left that can be raised.
fn draw_case(random: &mut Random) -> Option<Case> {
    let digits = 1 + random.below(MOST_DIGITS);
    let (mut offer, before) = draw_list(random, digits);
    let mut bids = before.clone();
    if random.one_in(2) {
        bids = cut(random, &offer, &before, digits);
    }
    let is_cut = total_to(&offer, &bids, offer.limit) < total_to(&offer, &before, offer.limit);
    let raisable = (0..bids.len()).filter(|&index| bids[index].bid.amount.0 < MOST);
    let raisable: Vec<usize> = raisable.collect();
    if bids.len() < 2 || raisable.is_empty() {
        return None;
    }
    let raised = random.pick(&raisable);
    let d_digits = if random.one_in(4) { MOST_DIGITS } else { digits };
    let d = draw_amount(random, 1..=d_digits).min(MOST - bids[raised].bid.amount.0);
    offer.amount = draw_offered(random, &offer, &bids, d);
    Some(Case { offer, bids, is_cut, raised, d })
}

/// An amount of so many digits, as often of few as of many, and now and then all nines.
fn draw_amount(random: &mut Random, digits: RangeInclusive<u64>) -> u64 {
    let digits = digits.start() + random.below(digits.end() - digits.start() + 1);
    if random.one_in(10) {
        10_u64.pow(digits as u32) - 1
    } else {
        random.of_digits(digits as u32)
    }
}

/// The bids of several counterparties at a few rates, and an offer whose amount is not drawn yet.
fn draw_list(random: &mut Random, digits: u64) -> (Offer, Vec<PlacedBid>) {
    let side = random.pick(&SIDES);
    let rates: Vec<Rate> = (0..=random.below(MOST_RATES)).map(|_| draw_rate(random)).collect();
    let widest = match side {
        Side::Collects => Rate(MOST_RATE),
        Side::Invests => Rate(0),
    };
    let limit = if random.one_in(2) { widest } else { random.pick(&rates) };
    // In some lists all amounts have one length, for otherwise the longest get nearly all.
    let least_digits = if random.one_in(3) { digits } else { 1 };
    let mut bids = Vec::new();
    let mut position = random.below(PLACES as u64) as usize;
    for _ in 0..2 + random.below(MOST_BIDS - 1) {
        let amount = Amount(draw_amount(random, least_digits..=digits));
        bids.push(PlacedBid { position, bid: Bid { rate: random.pick(&rates), amount } });
        position += random.pick(&STEPS);
    }
    (Offer { side, amount: Amount(0), limit }, bids)
}

fn draw_rate(random: &mut Random) -> Rate {
    match random.below(6) as u32 {
        0 => Rate(0),
        digits => Rate(1000 * random.of_digits(digits) as u32),
    }
}

/// What credit limits leave of the bids, in book order; some counterparties have none.
fn cut(random: &mut Random, offer: &Offer, bids: &[PlacedBid], digits: u64) -> Vec<PlacedBid> {
    let mut left = Vec::new();
    for own in bids.chunk_by(|a, b| a.position / PLACES == b.position / PLACES) {
        if random.one_in(3) {
            left.extend(own);
        } else {
            let cap = Amount(draw_amount(random, 1..=digits));
            left.extend(credit::cut(offer, own.to_vec(), cap));
        }
    }
    left.sort_by_key(|placed| placed.position);
    left
}

/// The total of the bids at a rate and at better ones.
fn total_to(offer: &Offer, bids: &[PlacedBid], rate: Rate) -> u64 {
    let is_counted =
        |placed: &&PlacedBid| beside(offer.side, placed.bid.rate, rate) != Beside::Worse;
    bids.iter().filter(is_counted).map(|placed| placed.bid.amount.0).sum()
}

/// An amount offered: the total of the first list or of the second up to a rate, one not far from
/// it, one below it, or any.
fn draw_offered(random: &mut Random, offer: &Offer, bids: &[PlacedBid], d: u64) -> Amount {
    let rate = random.pick(bids).bid.rate;
    let reached = total_to(offer, bids, rate) + random.pick(&[0, d]);
    let far = random.pick(&[1, 3, d]);
    let amount = match random.below(4) {
        0 => reached + random.below(far),
        1 => reached.saturating_sub(random.below(far)),
        2 => random.below(reached),
        _ => draw_amount(random, 1..=MOST_DIGITS),
    };
    Amount(amount.clamp(1, MOST))
}

#[cfg(test)]
mod tests {
    use super::*;
    use crate::award::POSITIONS;
    use std::collections::BTreeSet;

    fn length(number: u64) -> usize {
        number.to_string().len()
    }

    #[test]
    fn a_seed_always_gives_the_same_cases() {
        let first = |seed| cases(seed).take(10).collect::<Vec<_>>();
        assert_eq!(first(7), first(7));
        assert_ne!(first(7), first(8));
    }

    #[test]
    fn a_case_is_a_list_of_which_a_bid_can_be_raised() {
        for case in cases(1).take(5000) {
            assert!((2..=20).contains(&case.bids.len()));
            assert!(case.bids.windows(2).all(|two| two[0].position < two[1].position));
            assert!(case.bids.iter().all(|placed| placed.position < POSITIONS));
            assert!(case.bids.iter().all(|placed| placed.bid.rate.0 <= MOST_RATE));
            let amounts = case.bids.iter().map(|placed| placed.bid.amount.0);
            assert!(amounts
                .chain([case.offer.amount.0])
                .all(|amount| (1..=MOST).contains(&amount)));
            assert!(case.d >= 1 && case.bids[case.raised].bid.amount.0 + case.d <= MOST);
        }
    }

    #[test]
    fn amounts_have_every_length_and_rates_are_shared() {
        let mut lengths = [BTreeSet::new(), BTreeSet::new(), BTreeSet::new()];
        let mut sizes = BTreeSet::new();
        let mut sharing = 0;
        for case in cases(2).take(5000) {
            lengths[0].insert(length(case.d));
            lengths[1].insert(length(case.offer.amount.0));
            lengths[2].extend(case.bids.iter().map(|placed| length(placed.bid.amount.0)));
            sizes.insert(case.bids.len());
            let rates = case.bids.iter().map(|placed| placed.bid.rate.0);
            sharing += usize::from(rates.collect::<BTreeSet<_>>().len() < case.bids.len());
        }
        assert!(lengths.iter().all(|lengths| lengths.iter().copied().eq(1..=15)));
        assert!(sizes.into_iter().eq(2..=20));
        assert!(sharing > 4000);
    }

    /// The caps have one digit, so that of the first counterparty only the better bid is left.
    #[test]
    fn credit_limits_leave_lists_in_book_order() {
        let offer = Offer { side: Side::Invests, amount: Amount(1), limit: Rate(1000) };
        let placed = |(position, rate)| PlacedBid {
            position,
            bid: Bid { rate: Rate(rate), amount: Amount(70) },
        };
        let bids = [(3, 1000), (4, 2000), (15, 1000)].map(placed);
        let mut seen = [0; 4];
        for seed in 0..100 {
            let left = cut(&mut Random::new(seed), &offer, &bids, 1);
            let left = left.iter().map(|placed| (placed.position, placed.bid.amount.0));
            let left: Vec<_> = left.collect();
            match left[..] {
                [(3, 70), (4, 70), (15, 70)] => seen[0] += 1,
                [(3, 70), (4, 70), (15, 1..=9)] => seen[1] += 1,
                [(4, 1..=9), (15, 70)] => seen[2] += 1,
                [(4, 1..=9), (15, 1..=9)] => seen[3] += 1,
                _ => panic!("the limits left {left:?}"),
            }
        }
        assert!(seen.iter().all(|&times| times > 0));
    }

    #[test]
    fn a_few_cases_show_everything() {
        let mut drawn = Drawn::default();
        assert_eq!(drawn.compare(DEFAULT_SEED, 10_000), Ok(()));
        assert_eq!(drawn.missing(), Vec::<String>::new());
        assert_eq!((drawn.tally.pairs, drawn.tally.beyond), (10_000, 0));
        assert!(drawn.cut > 1000);
    }

    #[test]
    fn no_case_shows_nothing() {
        let missing = Drawn::default().missing();
        assert_eq!(missing.len(), 70 + 4 + 1);
        assert_eq!(missing[74], "a list that credit limits cut");
    }
}
