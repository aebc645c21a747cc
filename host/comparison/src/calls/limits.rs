//! Credit limits that aim at what the counterparties of a plan or a tender bid.

use crate::random::Random;
use crate::sessions::plan::{last_of_each, Plan, MOST_AMOUNT};
use independent::award::{Amount, Bid, Offer, PlacedBid, Rate, Side};
use independent::tender::{Holding, Tender};
use std::cmp::Reverse;

/// Limits for the codes of a plan, one for each.
pub fn limits(random: &mut Random, plan: &Plan) -> Vec<u64> {
    let codes = plan.codes.iter();
    match random.below(6) {
        0 | 1 => codes.map(|_| 0).collect(),
        2 => codes.map(|_| random.pick(&[0, 1, MOST_AMOUNT])).collect(),
        _ => codes.map(|&code| near(random, &planned_amounts(plan, code))).collect(),
    }
}

/// Caps some of the codes of a tender near what is held for them, and offers an amount near what the
/// bids then come to.
pub fn cap(random: &mut Random, tender: &mut Tender) {
    let offer = tender.terms.offer;
    tender.book.iter_mut().for_each(|holding| holding.cap = None);
    let uncut = bids_in(tender);
    for holding in &mut tender.book {
        let limit = near(random, &held_amounts(&offer, holding));
        holding.cap = Some(Amount(limit)).filter(|cap| cap.0 > 0 && random.one_in(2));
    }
    let cut = bids_in(tender);
    if !cut.is_empty() {
        tender.terms.offer.amount = Amount(offer_near(random, &cut, &uncut));
    }
}

/// A limit near what the bids of these amounts come to: in all, the first of them, or any part of it.
fn near(random: &mut Random, amounts: &[u64]) -> u64 {
    let whole: u64 = amounts.iter().sum();
    let first: u64 = amounts[..random.index(amounts.len() + 1)].iter().sum();
    let part = random.below(whole + 1);
    let limit = random.pick(&[0, 1, first, first, first + 1, whole, whole + 1, part, part, part]);
    let limit = if random.one_in(6) { limit.saturating_sub(1) } else { limit };
    limit.min(MOST_AMOUNT)
}

/// The amounts of the last application of a code within the limit rate of LP, in the order of the walk.
fn planned_amounts(plan: &Plan, code: u64) -> Vec<u64> {
    let last = plan.applications.iter().rev().find(|planned| planned.code == code);
    let places = last.map_or_else(Vec::new, |planned| planned.places.to_vec());
    let is_in = |bid: &(u64, u64)| *bid != (0, 0) && bid.0 >= plan.announcement.limit;
    let mut bids: Vec<_> = places.into_iter().filter(is_in).collect();
    // The sort is stable, so that equal rates stay in the order of their places.
    bids.sort_by_key(|bid| Reverse(bid.0));
    bids.into_iter().map(|bid| bid.1).collect()
}

/// The same of what is held for a code.
fn held_amounts(offer: &Offer, holding: &Holding) -> Vec<u64> {
    let mut bids: Vec<_> = holding.placed(0).filter(|bid| offer.is_in(bid.bid.rate)).collect();
    bids.sort_by(|a, b| offer.order(a, b));
    bids.into_iter().map(|placed| placed.bid.amount.0).collect()
}

/// Sets the amount offered, where the Treasury invests, near what the bids of a plan come to after the
/// cuts.
pub fn aim(random: &mut Random, plan: &mut Plan, limits: &[u64]) {
    let bids = cut_bids(plan, limits);
    if plan.announcement.side == Side::Invests && !bids.is_empty() {
        let uncut = cut_bids(plan, &vec![0; limits.len()]);
        plan.announcement.offered = offer_near(random, &bids, &uncut);
    }
}

/// An amount near what the bids at some rate of LP and at better ones come to after the cuts, or between
/// that and what they come to before.
fn offer_near(random: &mut Random, cut: &[PlacedBid], uncut: &[PlacedBid]) -> u64 {
    // The better of two rates, so that bids at worse ones can take the place of what is cut.
    let rate = random.pick(cut).bid.rate.max(random.pick(cut).bid.rate);
    let (total, before) = (total_from(cut, rate), total_from(uncut, rate));
    let part = random.below(total + 1);
    let between = total + random.below(before - total + 1);
    let exact = random.pick(&[total, total + 1, total.saturating_sub(1)]);
    random.pick(&[exact, exact, part, part, part, between, between]).clamp(1, MOST_AMOUNT)
}

/// What the bids at a rate of LP and at better ones come to.
fn total_from(bids: &[PlacedBid], rate: Rate) -> u64 {
    let served = bids.iter().filter(|placed| placed.bid.rate >= rate);
    served.map(|placed| placed.bid.amount.0).sum()
}

/// The bids of the last applications after the cuts, or none where the plan opens no tender.
fn cut_bids(plan: &Plan, limits: &[u64]) -> Vec<PlacedBid> {
    let codes: Vec<u32> = plan.codes.iter().map(|&code| code as u32).collect();
    let Ok(mut tender) = Tender::open(&plan.announcement.write(), &codes, limits) else {
        return Vec::new();
    };
    for planned in last_of_each(&plan.applications) {
        let holding = tender.book.iter_mut().find(|held| u64::from(held.code) == planned.code);
        if let Some(holding) = holding {
            holding.bids = planned
                .places
                .map(|(rate, amount)| Bid { rate: Rate(rate as u32), amount: Amount(amount) });
        }
    }
    bids_in(&tender)
}

/// The bids of a tender within the limit rate after the cuts.
fn bids_in(tender: &Tender) -> Vec<PlacedBid> {
    let offer = tender.terms.offer;
    tender.cut_bids().into_iter().filter(|placed| offer.is_in(placed.bid.rate)).collect()
}
