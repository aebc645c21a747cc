//! Previews: they give what closing and allotting a copy of the tender gives, and the tender stays.

mod common;

use common::{receive, told, Told, DAY};
use independent::award::{Amount, Bid, Rate, Side};
use independent::calendar::Moment;
use independent::compose::{draft, written, Announcement};
use independent::refusal::Refusal;
use independent::tender::{State, Tender};

/// The most eurocents that the bids of a book may have together.
const MOST_CENTS: u64 = 999_999_999_999_999_999;

fn opened(announcement: &Announcement, limits: &[u64; 3]) -> Tender {
    let codes = [90001, 90002, 90003];
    Tender::open(&announcement.write(), &codes, limits).expect("the tender opens")
}

fn worked() -> Tender {
    opened(&Announcement::worked(), &[0; 3])
}

fn close(tender: &mut Tender) {
    assert_eq!(tender.close(Moment::of_numbers(DAY, 110_001)), Ok(()));
}

/// The worked tender with the bids of its three counterparties.
fn filled() -> Tender {
    let mut tender = worked();
    receive(&mut tender, 90002, 102_900, &[(150_000, 60_000)]);
    receive(&mut tender, 90001, 103_100, &[(120_000, 50_000)]);
    receive(&mut tender, 90003, 103_400, &[(120_000, 40_000)]);
    tender
}

/// What a preview gives, which is what allotting a copy gives that was closed late where it is open.
fn previewed(tender: &Tender) -> Told {
    let before = tender.clone();
    let given = tender.preview().expect("the preview is not refused");
    assert_eq!(*tender, before);
    let mut copy = before;
    if copy.state == State::Open {
        assert_eq!(copy.close(Moment::of_numbers(31_122_099, 235_959)), Ok(()));
    }
    assert_eq!(copy.allot().as_ref(), Ok(&given));
    told(&given)
}

/// The refusal of a preview.
fn refused(tender: &Tender) -> Option<Refusal> {
    let before = tender.clone();
    let given = tender.preview();
    assert_eq!(*tender, before);
    given.err()
}

/// Closes and allots the tender, which gives what the last preview gave.
fn assert_ends_as_previewed(mut tender: Tender) {
    let last = previewed(&tender);
    close(&mut tender);
    assert_eq!(previewed(&tender), last);
    assert_eq!(tender.allot().map(|given| told(&given)), Ok(last));
    assert_eq!(tender.state, State::Announced);
}

#[test]
fn an_empty_book_gives_nothing() {
    let mut tender = worked();
    assert_eq!(previewed(&tender), (vec![], None));
    close(&mut tender);
    assert_eq!(previewed(&tender), (vec![], None));
}

#[test]
fn each_reception_moves_the_preview() {
    let mut tender = worked();
    assert_eq!(previewed(&tender), (vec![], None));
    receive(&mut tender, 90002, 102_900, &[(150_000, 60_000)]);
    assert_eq!(previewed(&tender), (vec![(10, 60_000)], None));
    receive(&mut tender, 90001, 103_100, &[(120_000, 50_000)]);
    assert_eq!(previewed(&tender), (vec![(0, 40_000), (10, 60_000)], Some(120_000)));
    assert_eq!(previewed(&tender), previewed(&tender));
    receive(&mut tender, 90003, 103_400, &[(120_000, 40_000)]);
    let awards = vec![(0, 22_223), (10, 60_000), (20, 17_777)];
    assert_eq!(previewed(&tender), (awards, Some(120_000)));
    assert_ends_as_previewed(tender);
}

#[test]
fn what_is_cancelled_is_not_in_a_preview() {
    let mut tender = filled();
    receive(&mut tender, 90002, 103_500, &[]);
    assert_eq!(previewed(&tender), (vec![(0, 50_000), (20, 40_000)], None));
    assert_ends_as_previewed(tender);
}

#[test]
fn a_message_with_an_error_moves_no_preview() {
    let mut tender = filled();
    let before = previewed(&tender);
    let message = written(&draft(90003, 103_600, &[(150_000, 40_000)]));
    // Past the cut-off an open tender is still previewed.
    let late = Moment::of_numbers(DAY, 110_001);
    let given = tender.receive(&message, late, &mut [0; 436]).expect("the message is received");
    assert_eq!(given.errors.codes().collect::<Vec<_>>(), [301]);
    assert_eq!(previewed(&tender), before);
}

#[test]
fn an_open_tender_is_previewed_and_stays_open() {
    let mut tender = filled();
    assert_eq!(tender.allot(), Err(Refusal::StillOpen));
    assert!(tender.preview().is_ok());
    assert_eq!(tender.state, State::Open);
    receive(&mut tender, 90001, 103_700, &[(150_000, 100_000)]);
    assert_eq!(previewed(&tender), (vec![(0, 62_500), (10, 37_500)], Some(150_000)));
    assert_ends_as_previewed(tender);
}

#[test]
fn a_closed_tender_is_previewed_and_stays_closed() {
    let mut tender = filled();
    close(&mut tender);
    let awards = vec![(0, 22_223), (10, 60_000), (20, 17_777)];
    assert_eq!(previewed(&tender), (awards, Some(120_000)));
    assert_eq!(tender.state, State::Closed);
    assert!(tender.allot().is_ok());
}

#[test]
fn r15_an_announced_tender_is_not_previewed() {
    let mut tender = filled();
    close(&mut tender);
    assert!(tender.allot().is_ok());
    assert_eq!(refused(&tender), Some(Refusal::Announced));
}

#[test]
fn r08_a_revoked_tender_is_not_previewed() {
    let mut open = filled();
    assert_eq!(open.revoke(), Ok(()));
    assert_eq!(refused(&open), Some(Refusal::Revoked));
    let mut closed = filled();
    close(&mut closed);
    assert_eq!(closed.revoke(), Ok(()));
    assert_eq!(refused(&closed), Some(Refusal::Revoked));
}

#[test]
fn r16_bids_beyond_the_most_cents_are_not_previewed() {
    for state in [State::Open, State::Closed] {
        let mut tender = filled();
        tender.state = state;
        for amount in [MOST_CENTS - 150_000 + 1, MOST_CENTS, u64::MAX] {
            tender.book[2].bids[9].amount = Amount(amount);
            assert_eq!(refused(&tender), Some(Refusal::BidsExceed));
        }
        tender.book[2].bids[9].amount = Amount(MOST_CENTS - 150_000);
        // A bid at rate zero is outside the limit rate.
        let awards = vec![(0, 22_223), (10, 60_000), (20, 17_777)];
        assert_eq!(previewed(&tender), (awards, Some(120_000)));
    }
}

#[test]
fn r08_and_r15_come_before_r16_and_r14_never() {
    let mut tender = filled();
    tender.book[0].bids[0].amount = Amount(MOST_CENTS);
    let refusals = [
        (State::Open, Refusal::BidsExceed),
        (State::Closed, Refusal::BidsExceed),
        (State::Announced, Refusal::Announced),
        (State::Revoked, Refusal::Revoked),
    ];
    for (state, refusal) in refusals {
        tender.state = state;
        assert_eq!(refused(&tender), Some(refusal));
    }
}

#[test]
fn r16_looks_at_the_bids_before_the_cuts() {
    let mut tender = opened(&Announcement::worked(), &[1; 3]);
    tender.book[0].bids[0].amount = Amount(MOST_CENTS + 1);
    assert_eq!(refused(&tender), Some(Refusal::BidsExceed));
    tender.book[0].bids[0] = Bid { rate: Rate(150_000), amount: Amount(MOST_CENTS) };
    assert_eq!(previewed(&tender), (vec![(0, 1)], None));
}

#[test]
fn the_lowest_rate_is_best_where_the_treasury_collects() {
    let terms = Announcement { side: Side::Collects, ..Announcement::worked() };
    let mut tender = opened(&terms, &[40_000, 1, 0]);
    receive(&mut tender, 90001, 100_000, &[(90_000, 80_000), (101_000, 80_000)]);
    assert_eq!(previewed(&tender), (vec![(0, 80_000)], None));
    receive(&mut tender, 90002, 100_000, &[(80_000, 60_000)]);
    assert_eq!(previewed(&tender), (vec![(0, 40_000), (10, 60_000)], Some(90_000)));
    assert_ends_as_previewed(tender);
}

#[test]
fn credit_limits_cut_the_bids_of_a_preview() {
    let mut tender = opened(&Announcement::worked(), &[40_000, 0, 0]);
    receive(&mut tender, 90001, 100_000, &[(150_000, 100_000)]);
    assert_eq!(previewed(&tender), (vec![(0, 40_000)], None));
    receive(&mut tender, 90002, 100_000, &[(120_000, 80_000)]);
    assert_eq!(previewed(&tender), (vec![(0, 40_000), (10, 60_000)], Some(120_000)));
    assert_eq!(tender.book[0].bids[0].amount, Amount(100_000));
    assert_ends_as_previewed(tender);
}

#[test]
fn the_marginal_rate_comes_and_goes() {
    let mut tender = worked();
    receive(&mut tender, 90001, 100_000, &[(150_000, 90_000)]);
    assert_eq!(previewed(&tender), (vec![(0, 90_000)], None));
    receive(&mut tender, 90002, 100_000, &[(100_000, 10_000)]);
    assert_eq!(previewed(&tender), (vec![(0, 90_000), (10, 10_000)], Some(100_000)));
    receive(&mut tender, 90002, 100_001, &[(99_000, 10_000)]);
    assert_eq!(previewed(&tender), (vec![(0, 90_000)], None));
    assert_ends_as_previewed(tender);
}
