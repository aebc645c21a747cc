//! What pairs of lists can show of the raised bid, of another one and of the marginal rate.

use crate::award::Side;
use crate::steadiness::{beside, Beside, Pair, Standing};
use std::fmt::{self, Display, Formatter};

pub const SIDES: [Side; 2] = [Side::Collects, Side::Invests];
const BESIDES: [Beside; 3] = [Beside::Better, Beside::Same, Beside::Worse];
const STANDINGS: [Standing; 4] =
    [Standing::Full, Standing::Shared, Standing::Unserved, Standing::Out];
/// How many kinds there are, possible and impossible ones.
const KINDS: usize = SIDES.len() * BESIDES.len() * 16 * 16;

/// The standings of a bid in the first list and in the second.
pub type Standings = (Standing, Standing);

/// The raised bid and another one.
#[derive(Clone, Copy, Debug, PartialEq, Eq)]
pub struct Kind {
    pub side: Side,
    /// The raised bid's rate beside the other's.
    pub beside: Beside,
    pub raised: Standings,
    pub other: Standings,
}

/// Whether bids at two rates can stand so in one list: the better rate is served first, and only
/// one rate is shared.
fn can_stand(better: Standing, worse: Standing) -> bool {
    better <= worse && (better, worse) != (Standing::Shared, Standing::Shared)
}

/// Whether a raised bid can stand so: the total at its rate rises, the total at better rates stays.
fn can_be_raised(raised: Standings) -> bool {
    raised.0 == raised.1 || raised == (Standing::Full, Standing::Shared)
}

/// Whether a bid can stand so where the total at better rates rises: it is not served better, and
/// the limit rate stays.
fn can_be_pushed(other: Standings) -> bool {
    other.0 <= other.1 && (other.0 == Standing::Out) == (other.1 == Standing::Out)
}

impl Kind {
    pub fn of(pair: &Pair, other: usize) -> Kind {
        let standings = |index: usize| (pair.first.standings[index], pair.second.standings[index]);
        Kind {
            side: pair.first.offer.side,
            beside: pair.raised_beside(other),
            raised: standings(pair.raised),
            other: standings(other),
        }
    }

    /// Whether two bids can stand so, by the totals that document 01 compares.
    pub fn is_possible(&self) -> bool {
        let (raised, other) = (self.raised, self.other);
        let can_be_beside = match self.beside {
            Beside::Better => {
                can_be_pushed(other) && can_stand(raised.0, other.0) && can_stand(raised.1, other.1)
            }
            Beside::Same => raised == other,
            Beside::Worse => {
                other.0 == other.1 && can_stand(other.0, raised.0) && can_stand(other.1, raised.1)
            }
        };
        can_be_raised(raised) && can_be_beside
    }

    /// The number of the kind.
    fn number(&self) -> usize {
        let standings = |(first, second): Standings| first as usize * 4 + second as usize;
        let head = self.side as usize * BESIDES.len() + self.beside as usize;
        (head * 16 + standings(self.raised)) * 16 + standings(self.other)
    }

    /// The kind that has this number.
    fn of_number(number: usize) -> Kind {
        let standings = |rest: usize| (STANDINGS[rest / 4 % 4], STANDINGS[rest % 4]);
        let head = number / 256;
        Kind {
            side: SIDES[head / BESIDES.len()],
            beside: BESIDES[head % BESIDES.len()],
            raised: standings(number / 16),
            other: standings(number),
        }
    }
}

impl Display for Kind {
    fn fmt(&self, out: &mut Formatter) -> fmt::Result {
        let (raised, other) = (self.raised, self.other);
        write!(out, "{}, raised at {}, ", name(self.side), self.beside)?;
        write!(out, "raised {} then {}, another {} then {}", raised.0, raised.1, other.0, other.1)
    }
}

/// What becomes of the marginal rate.
#[derive(Clone, Copy, Debug, PartialEq, Eq)]
pub enum Marginal {
    /// There is none in either list.
    Missing,
    Kept,
    /// It becomes a better one.
    Changed,
    /// There is one in the second list only.
    Appeared,
}

const MARGINALS: [Marginal; 4] =
    [Marginal::Missing, Marginal::Kept, Marginal::Changed, Marginal::Appeared];

impl Marginal {
    /// What becomes of it, or none where that is impossible: it goes, or becomes a worse one.
    pub fn of(pair: &Pair) -> Option<Marginal> {
        let (first, second) = match (pair.first.marginal_rate, pair.second.marginal_rate) {
            (Some(first), Some(second)) => (first, second),
            (None, None) => return Some(Marginal::Missing),
            (None, Some(_)) => return Some(Marginal::Appeared),
            (Some(_), None) => return None,
        };
        match beside(pair.first.offer.side, second, first) {
            Beside::Better => Some(Marginal::Changed),
            Beside::Same => Some(Marginal::Kept),
            Beside::Worse => None,
        }
    }
}

/// The documents' name of a side.
pub fn name(side: Side) -> &'static str {
    match side {
        Side::Collects => "LA",
        Side::Invests => "LP",
    }
}

/// Those of the entries that were not seen.
pub fn unseen<T, const N: usize>(entries: [T; N], seen: [bool; N]) -> impl Iterator<Item = T> {
    let entries = entries.into_iter().zip(seen);
    entries.filter(|(_, is_seen)| !is_seen).map(|(entry, _)| entry)
}

/// Which kinds of bids and what of the marginal rate was seen.
pub struct Shown {
    kinds: [bool; KINDS],
    marginals: [[bool; MARGINALS.len()]; SIDES.len()],
}

impl Default for Shown {
    fn default() -> Shown {
        Shown { kinds: [false; KINDS], marginals: Default::default() }
    }
}

impl Shown {
    /// Takes note of what a pair shows, or tells what it shows that is impossible.
    pub fn see(&mut self, pair: &Pair) -> Result<(), String> {
        for other in pair.others() {
            self.see_kind(Kind::of(pair, other))?;
        }
        let marginal = Marginal::of(pair).ok_or("the marginal rate became worse")?;
        self.marginals[pair.first.offer.side as usize][marginal as usize] = true;
        Ok(())
    }

    fn see_kind(&mut self, kind: Kind) -> Result<(), String> {
        let seen = &mut self.kinds[kind.number()];
        if !*seen && !kind.is_possible() {
            return Err(format!("bids that cannot stand so: {kind}"));
        }
        *seen = true;
        Ok(())
    }

    /// What is possible and was not seen.
    pub fn missing(&self) -> Vec<String> {
        let kinds = (0..KINDS).filter(|&number| !self.kinds[number]).map(Kind::of_number);
        let kinds = kinds.filter(Kind::is_possible);
        let mut missing: Vec<String> = kinds.map(|kind| kind.to_string()).collect();
        for side in SIDES {
            let text = |marginal| format!("{}, marginal rate {marginal:?}", name(side));
            missing.extend(unseen(MARGINALS, self.marginals[side as usize]).map(text));
        }
        missing
    }
}

#[cfg(test)]
mod tests {
    use super::Standing::{Full, Out, Shared, Unserved};
    use super::*;
    use crate::award::{Amount, Bid, Offer, PlacedBid, Rate};
    use crate::steadiness::Allotted;

    fn is_possible(beside: Beside, raised: Standings, other: Standings) -> bool {
        let kinds = SIDES.map(|side| Kind { side, beside, raised, other });
        assert_eq!(kinds[0].is_possible(), kinds[1].is_possible());
        kinds[0].is_possible()
    }

    fn count(beside: Beside) -> usize {
        let kinds = (0..KINDS).map(Kind::of_number);
        kinds.filter(|kind| kind.beside == beside && kind.is_possible()).count()
    }

    #[test]
    fn every_kind_has_its_number() {
        for number in 0..KINDS {
            assert_eq!(Kind::of_number(number).number(), number);
        }
    }

    #[test]
    fn a_bid_of_the_same_rate_stands_as_the_raised_one() {
        let possible =
            [(Full, Full), (Full, Shared), (Shared, Shared), (Unserved, Unserved), (Out, Out)];
        for raised in possible {
            assert!(is_possible(Beside::Same, raised, raised));
        }
        assert!(!is_possible(Beside::Same, (Full, Unserved), (Full, Unserved)));
        assert!(!is_possible(Beside::Same, (Full, Full), (Full, Shared)));
        assert_eq!(count(Beside::Same), 2 * possible.len());
    }

    #[test]
    fn a_bid_of_a_worse_rate_is_pushed() {
        let possible = [
            ((Full, Full), vec![(Full, Full), (Full, Shared), (Full, Unserved), (Shared, Shared)]),
            ((Full, Full), vec![(Shared, Unserved), (Unserved, Unserved), (Out, Out)]),
            ((Full, Shared), vec![(Full, Unserved), (Shared, Unserved)]),
            ((Full, Shared), vec![(Unserved, Unserved), (Out, Out)]),
            ((Shared, Shared), vec![(Unserved, Unserved), (Out, Out)]),
            ((Unserved, Unserved), vec![(Unserved, Unserved), (Out, Out)]),
            ((Out, Out), vec![(Out, Out)]),
        ];
        for (raised, others) in possible {
            for other in others {
                assert!(is_possible(Beside::Better, raised, other));
            }
        }
        assert!(!is_possible(Beside::Better, (Full, Full), (Unserved, Shared)));
        assert!(!is_possible(Beside::Better, (Full, Full), (Full, Out)));
        assert!(!is_possible(Beside::Better, (Full, Shared), (Full, Shared)));
        assert!(!is_possible(Beside::Better, (Full, Unserved), (Full, Unserved)));
        assert_eq!(count(Beside::Better), 2 * 16);
    }

    #[test]
    fn a_bid_of_a_better_rate_stands_as_before() {
        for raised in [(Full, Full), (Full, Shared), (Shared, Shared)] {
            assert!(is_possible(Beside::Worse, raised, (Full, Full)));
        }
        for other in [Full, Shared, Unserved] {
            assert!(is_possible(Beside::Worse, (Unserved, Unserved), (other, other)));
        }
        for other in STANDINGS {
            assert!(is_possible(Beside::Worse, (Out, Out), (other, other)));
        }
        assert!(!is_possible(Beside::Worse, (Unserved, Unserved), (Full, Shared)));
        assert!(!is_possible(Beside::Worse, (Shared, Shared), (Shared, Shared)));
        assert!(!is_possible(Beside::Worse, (Full, Full), (Unserved, Unserved)));
        assert_eq!(count(Beside::Worse), 2 * 10);
    }

    /// A bid of 2 in LP beside which another of 1 at a worse rate gets what is left.
    fn first(amount: u64) -> Allotted {
        let offer = Offer { side: Side::Invests, amount: Amount(amount), limit: Rate(0) };
        let placed = |(position, rate, amount)| PlacedBid {
            position,
            bid: Bid { rate: Rate(rate), amount: Amount(amount) },
        };
        Allotted::new(offer, [(0, 2000, 2), (1, 1000, 1)].map(placed).to_vec())
    }

    #[test]
    fn the_marginal_rate_changes_and_appears() {
        let marginal = |amount| Marginal::of(&Pair::new(&first(amount), 0, 1));
        let expected = [
            (2, Marginal::Kept),
            (3, Marginal::Changed),
            (4, Marginal::Appeared),
            (5, Marginal::Missing),
        ];
        for (amount, expected) in expected {
            assert_eq!(marginal(amount), Some(expected));
        }
    }

    #[test]
    fn the_marginal_rate_neither_goes_nor_becomes_worse() {
        let first = first(3);
        let mut pair = Pair::new(&first, 0, 1);
        for other in [None, Some(Rate(0))] {
            pair.second.marginal_rate = other;
            assert_eq!(Marginal::of(&pair), None);
            let wrong = "the marginal rate became worse".to_string();
            assert_eq!(Shown::default().see(&pair), Err(wrong));
        }
    }

    #[test]
    fn what_was_not_seen_is_missing() {
        let mut shown = Shown::default();
        let all = shown.missing();
        assert_eq!(all.len(), 2 * (16 + 5 + 10 + 4));
        let first = first(3);
        assert_eq!(shown.see(&Pair::new(&first, 0, 1)), Ok(()));
        let seen = [
            "LP, raised at a better rate, raised full then full, another full then unserved",
            "LP, marginal rate Changed",
        ];
        let left = all.iter().filter(|text| !seen.contains(&text.as_str()));
        assert_eq!(shown.missing(), left.cloned().collect::<Vec<_>>());
        assert_eq!(shown.missing().len(), all.len() - seen.len());
    }

    #[test]
    fn what_is_impossible_is_told() {
        let first = first(3);
        let mut pair = Pair::new(&first, 0, 1);
        pair.second.standings = vec![Shared, Shared];
        let wrong = "bids that cannot stand so: LP, raised at a better rate, \
                     raised full then shared, another full then shared";
        assert_eq!(Shown::default().see(&pair), Err(wrong.to_string()));
    }
}
