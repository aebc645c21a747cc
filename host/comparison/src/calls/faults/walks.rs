//! Wrong ways to walk the bids of the counterparties and to cut them to their credit limits.

use crate::calls::book::{Book, NO_TENDER, OK};
use crate::calls::independent_book::IndependentBook as Right;
use crate::calls::layout::{self, STATE};
use independent::award::{Amount, Bid, Offer, PlacedBid, Side};
use independent::tender::{Holding, Tender};
use std::cmp::Ordering;

/// How the bids of one counterparty are walked.
#[derive(Clone, Copy)]
pub struct Walk {
    pub order: fn(&Offer, &PlacedBid, &PlacedBid) -> Ordering,
    /// What a bid of an amount keeps where the cap leaves so much.
    pub step: fn(u64, u64) -> u64,
    /// Whether a bid of an amount stays where it keeps so much.
    pub stays: fn(u64, u64) -> bool,
    pub is_capped: fn(Side) -> bool,
}

/// The walk as it should be.
pub const RIGHT: Walk = Walk {
    order: Offer::order,
    step: u64::min,
    stays: |amount, kept| kept > 0 || amount == 0,
    is_capped: |side| side == Side::Invests,
};

/// The better rate first, and of equal rates the last place.
pub fn last_place_first(offer: &Offer, a: &PlacedBid, b: &PlacedBid) -> Ordering {
    let placed = |position, bid| PlacedBid { position, bid };
    offer.order(&placed(b.position, a.bid), &placed(a.position, b.bid))
}

impl Walk {
    /// Cuts the bids of the tender, which is then capped no more.
    pub fn cut(&self, tender: &mut Tender) {
        let offer = tender.terms.offer;
        for holding in &mut tender.book {
            let cap = holding.cap.take().filter(|_| (self.is_capped)(offer.side));
            if let Some(cap) = cap {
                self.cut_bids(&offer, holding, cap);
            }
        }
    }

    fn cut_bids(&self, offer: &Offer, holding: &mut Holding, cap: Amount) {
        let is_in = |placed: &PlacedBid| offer.is_in(placed.bid.rate);
        let mut walked: Vec<_> = holding.placed(0).filter(is_in).collect();
        walked.sort_by(|a, b| (self.order)(offer, a, b));
        let mut left = cap.0;
        for PlacedBid { position, bid } in walked {
            let kept = (self.step)(bid.amount.0, left);
            left -= kept;
            let cut = Bid { amount: Amount(kept), ..bid };
            let stays = (self.stays)(bid.amount.0, kept);
            holding.bids[position] = if stays { cut } else { Bid::ZERO };
        }
    }
}

/// Takes the limits away.
pub fn uncap(tender: &mut Tender) {
    tender.book.iter_mut().for_each(|holding| holding.cap = None);
}

/// Gives each counterparty the limit of the next one.
pub fn shift_limits(tender: &mut Tender) {
    let mut caps: Vec<_> = tender.book.iter().map(|holding| holding.cap).collect();
    caps.rotate_left(1);
    tender.book.iter_mut().zip(caps).for_each(|(holding, cap)| holding.cap = cap);
}

/// Allots the tender in the words as it is after a change, and leaves what the words hold of it.
pub fn allot_changed(
    words: &mut [u64],
    awards: &mut [u64],
    told: &mut [u64],
    change: impl FnOnce(&mut Tender),
) -> u64 {
    let Some(mut tender) = layout::tender_of(words) else { return NO_TENDER };
    change(&mut tender);
    let mut changed = words.to_vec();
    layout::put_opened(&mut changed, &tender);
    let result = Right::allot(&mut changed, awards, told);
    if result == OK {
        words[STATE] = changed[STATE];
    }
    result
}

/// The same where the tender is not refused as it is.
pub fn allot_accepted(
    words: &mut [u64],
    awards: &mut [u64],
    told: &mut [u64],
    change: impl FnOnce(&mut Tender),
) -> u64 {
    match Right::allot(&mut words.to_vec(), &mut [], &mut []) {
        OK => allot_changed(words, awards, told, change),
        refusal => refusal,
    }
}
