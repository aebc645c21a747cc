//! How far one bid can push another, in previews of a tender before and after one bid is raised.

mod common;

use common::{receive, told, Told};
use independent::award::Side;
use independent::compose::Announcement;
use independent::steadiness::{Allotted, Beside, Pair, Standing};
use independent::tender::Tender;

/// A tender in which every amount is allowed, with codes 90001 to 90003.
fn opened(side: Side, offered: u64, limits: &[u64; 3]) -> Tender {
    let terms = Announcement { side, offered, minimum: 1, increment: 1, ..Announcement::worked() };
    let codes = [90001, 90002, 90003];
    Tender::open(&terms.write(), &codes, limits).expect("the tender opens")
}

fn previewed(tender: &Tender) -> Told {
    told(&tender.preview().expect("the preview is not refused"))
}

/// What a preview gives after a later application of the code, which replaces its bids.
fn previewed_with(tender: &Tender, code: u64, bids: &[(u64, u64)]) -> Told {
    let mut tender = tender.clone();
    receive(&mut tender, code, 102_000, bids);
    previewed(&tender)
}

/// The positions, rates and amounts of the bids as the credit limits leave them.
fn left(tender: &Tender) -> Vec<(usize, u32, u64)> {
    let bids = tender.cut_bids().into_iter();
    bids.map(|placed| (placed.position, placed.bid.rate.0, placed.bid.amount.0)).collect()
}

#[test]
fn one_cent_more_takes_one_cent_from_a_bid_of_the_same_rate() {
    let mut tender = opened(Side::Invests, 2, &[0; 3]);
    receive(&mut tender, 90001, 100_000, &[(150_000, 1)]);
    receive(&mut tender, 90002, 100_000, &[(150_000, 1)]);
    assert_eq!(previewed(&tender), (vec![(0, 1), (10, 1)], Some(150_000)));
    let first_raised = previewed_with(&tender, 90001, &[(150_000, 2)]);
    assert_eq!(first_raised, (vec![(0, 2)], Some(150_000)));
    // The cent that is left goes to the first in book order, which keeps its award so.
    let second_raised = previewed_with(&tender, 90002, &[(150_000, 2)]);
    assert_eq!(second_raised, (vec![(0, 1), (10, 1)], Some(150_000)));
}

#[test]
fn a_bid_of_a_better_rate_takes_all_of_d() {
    let mut tender = opened(Side::Invests, 100_000, &[0; 3]);
    receive(&mut tender, 90001, 100_000, &[(120_000, 50_000)]);
    receive(&mut tender, 90002, 100_000, &[(150_000, 60_000)]);
    assert_eq!(previewed(&tender), (vec![(0, 40_000), (10, 60_000)], Some(120_000)));
    let raised = previewed_with(&tender, 90002, &[(150_000, 85_000)]);
    assert_eq!(raised, (vec![(0, 15_000), (10, 85_000)], Some(120_000)));
    let raised = previewed_with(&tender, 90002, &[(150_000, 100_000)]);
    assert_eq!(raised, (vec![(10, 100_000)], Some(150_000)));
    // The bid has no more to lose than its award.
    let raised = previewed_with(&tender, 90002, &[(150_000, 999_999)]);
    assert_eq!(raised, (vec![(10, 100_000)], Some(150_000)));
}

/// The lowest rate is best: 39,993 are left of 40,000 where the best bid is raised by 7.
#[test]
fn shares_move_by_parts_of_d_where_the_treasury_collects() {
    let mut tender = opened(Side::Collects, 100_000, &[1, 1, 1]);
    receive(&mut tender, 90001, 100_000, &[(90_000, 60_000)]);
    receive(&mut tender, 90002, 100_000, &[(95_000, 50_000)]);
    let last = [(95_000, 30_000), (96_000, 10), (101_000, 10)];
    receive(&mut tender, 90003, 100_000, &last);
    let first = (vec![(0, 60_000), (10, 25_000), (20, 15_000)], Some(95_000));
    assert_eq!(previewed(&tender), first);
    let better = previewed_with(&tender, 90001, &[(90_000, 60_007)]);
    assert_eq!(better, (vec![(0, 60_007), (10, 24_996), (20, 14_997)], Some(95_000)));
    let unserved = [(95_000, 30_000), (96_000, 100_000), (101_000, 10)];
    assert_eq!(previewed_with(&tender, 90003, &unserved), first);
    let out = [(95_000, 30_000), (96_000, 10), (101_000, 100_000)];
    assert_eq!(previewed_with(&tender, 90003, &out), first);
}

/// In the book the bid is raised by 22, of which its counterparty's limit leaves 2.
#[test]
fn d_is_what_the_credit_limit_leaves_of_a_raise() {
    let mut tender = opened(Side::Invests, 60, &[50, 0, 0]);
    receive(&mut tender, 90001, 100_000, &[(150_000, 40), (140_000, 8)]);
    receive(&mut tender, 90002, 100_000, &[(120_000, 60)]);
    let first = Allotted::new(tender.terms.offer, tender.cut_bids());
    assert_eq!(left(&tender), [(0, 150_000, 40), (1, 140_000, 8), (10, 120_000, 60)]);
    assert_eq!(previewed(&tender), (vec![(0, 40), (1, 8), (10, 12)], Some(120_000)));

    receive(&mut tender, 90001, 102_000, &[(150_000, 40), (140_000, 30)]);
    assert_eq!(left(&tender), [(0, 150_000, 40), (1, 140_000, 10), (10, 120_000, 60)]);
    assert_eq!(previewed(&tender), (vec![(0, 40), (1, 10), (10, 10)], Some(120_000)));

    let pair = Pair::new(&first, 1, 2);
    assert_eq!(pair.second.bids, tender.cut_bids());
    assert_eq!([0, 2].map(|other| pair.raised_beside(other)), [Beside::Worse, Beside::Better]);
    assert_eq!([0, 2].map(|other| pair.difference(other)), [0, 2]);
    assert_eq!(pair.second.standings, [Standing::Full, Standing::Full, Standing::Shared]);
}

#[test]
fn a_bid_that_changes_its_rate_too_can_move_another_by_more() {
    let mut tender = opened(Side::Invests, 10, &[0; 3]);
    receive(&mut tender, 90001, 100_000, &[(110_000, 10)]);
    receive(&mut tender, 90002, 100_000, &[(120_000, 10)]);
    assert_eq!(previewed(&tender), (vec![(10, 10)], Some(120_000)));
    let raised = previewed_with(&tender, 90001, &[(110_000, 11)]);
    assert_eq!(raised, (vec![(10, 10)], Some(120_000)));
    let raised_and_better = previewed_with(&tender, 90001, &[(130_000, 11)]);
    assert_eq!(raised_and_better, (vec![(0, 10)], Some(130_000)));
}
