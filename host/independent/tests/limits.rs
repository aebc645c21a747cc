//! Credit limits: which are refused, and the awards of the bids that they cut.

mod common;

use common::{receive, DAY};
use independent::award::{Amount, Side};
use independent::calendar::Moment;
use independent::compose::Announcement;
use independent::refusal::Refusal;
use independent::tender::{State, Tender};

const CODES: [u32; 3] = [90001, 90002, 90003];
const MOST: u64 = 999_999_999_999_999;

/// The applications of the codes, from the first on, and what they get: the awards above zero, with
/// their code and place, and the marginal rate.
fn allotted(
    announcement: &Announcement,
    limits: &[u64],
    applications: &[&[(u64, u64)]],
) -> (Vec<(u32, usize, u64)>, Option<u32>) {
    let mut tender = Tender::open(&announcement.write(), &CODES, limits).expect("the tender opens");
    for (&code, bids) in CODES.iter().zip(applications) {
        receive(&mut tender, u64::from(code), 100_000, bids);
    }
    assert_eq!(tender.close(Moment::of_numbers(DAY, 110_001)), Ok(()));
    let given = tender.allot().expect("the tender is allotted");
    let awards = tender.awards(&given).map(|award| (award.code, award.place, award.cents));
    (awards.collect(), given.marginal_rate.map(|rate| rate.0))
}

/// What the first code gets in the worked tender, by its places, where nobody else bids.
fn alone(limit: u64, bids: &[(u64, u64)]) -> Vec<(usize, u64)> {
    let (awards, marginal) = allotted(&Announcement::worked(), &[limit, 0, 0], &[bids]);
    assert_eq!(marginal, None);
    awards.into_iter().map(|(_, place, cents)| (place, cents)).collect()
}

#[test]
fn the_bid_is_cut_and_not_the_award() {
    let bids: [&[_]; 2] = [&[(150_000, 100_000)]; 2];
    let given = allotted(&Announcement::worked(), &[40_000, 0, 0], &bids);
    let awards = vec![(90001, 1, 28_572), (90002, 1, 71_428)];
    assert_eq!(given, (awards, Some(150_000)));
}

#[test]
fn the_marginal_rate_is_that_of_the_cut_bids() {
    let bids: [&[_]; 2] = [&[(150_000, 100_000)], &[(120_000, 80_000)]];
    let given = allotted(&Announcement::worked(), &[40_000, 0, 0], &bids);
    let awards = vec![(90001, 1, 40_000), (90002, 1, 60_000)];
    assert_eq!(given, (awards, Some(120_000)));
    let uncapped = allotted(&Announcement::worked(), &[0; 3], &bids);
    assert_eq!(uncapped, (vec![(90001, 1, 100_000)], Some(150_000)));
}

#[test]
fn a_smaller_later_bid_is_not_taken() {
    let bids = [(150_000, 40_000), (140_000, 30_000), (130_000, 10_000)];
    assert_eq!(alone(50_000, &bids), [(1, 40_000), (2, 10_000)]);
}

#[test]
fn what_is_left_stays_below_the_minimum() {
    let bids = [(150_000, 40_000), (140_000, 30_000)];
    assert_eq!(alone(40_001, &bids), [(1, 40_000), (2, 1)]);
    assert_eq!(alone(9_999, &bids), [(1, 9_999)]);
}

#[test]
fn a_cap_that_is_met_exactly() {
    let bids = [(150_000, 40_000), (140_000, 30_000), (140_000, 20_000)];
    assert_eq!(alone(70_000, &bids), [(1, 40_000), (2, 30_000)]);
    assert_eq!(alone(90_000, &bids), [(1, 40_000), (2, 30_000), (3, 20_000)]);
}

#[test]
fn zero_is_no_cap_and_fifteen_digits_are_one() {
    let bids = [(150_000, 40_000), (140_000, 30_000)];
    assert_eq!(alone(0, &bids), [(1, 40_000), (2, 30_000)]);
    assert_eq!(alone(MOST, &bids), [(1, 40_000), (2, 30_000)]);
    let terms = Announcement { minimum: 1, increment: 1, offered: MOST, ..Announcement::worked() };
    let most: [&[_]; 1] = [&[(150_000, MOST); 2]];
    let given = allotted(&terms, &[MOST, 0, 0], &most);
    assert_eq!(given, (vec![(90001, 1, MOST)], Some(150_000)));
}

#[test]
fn a_bid_that_is_cut_to_zero_gets_no_cent() {
    let bid = (150_000, 10_000);
    let bids: [&[_]; 3] = [&[bid; 2], &[bid], &[bid]];
    let terms = Announcement { offered: 20_000, ..Announcement::worked() };
    let given = allotted(&terms, &[10_000, 0, 0], &bids);
    let awards = vec![(90001, 1, 6_667), (90002, 1, 6_667), (90003, 1, 6_666)];
    assert_eq!(given, (awards, Some(150_000)));
}

/// Document 002's example 2.c, with rates of two decimals. The offer is not filled, so that document 01
/// gives no marginal rate.
#[test]
fn document_002_example_2c() {
    let million = 100_000_000;
    let terms = Announcement {
        offered: 1000 * million,
        minimum: 10 * million,
        increment: 10 * million,
        limit: 81_700,
        ..Announcement::worked()
    };
    let first = [(171_000, 10 * million), (131_000, 500 * million), (80_000, 10 * million)];
    let second = [(131_000, 290 * million), (112_000, 150 * million), (106_000, 100 * million)];
    let (awards, marginal) = allotted(&terms, &[0, 250 * million, 0], &[&first, &second]);
    assert_eq!(awards.iter().map(|award| award.2).sum::<u64>(), 760 * million);
    let each = [(90001, 1, 10 * million), (90001, 2, 500 * million), (90002, 1, 250 * million)];
    assert_eq!((&awards[..], marginal), (&each[..], None));
}

#[test]
fn limits_cut_nothing_where_the_treasury_collects() {
    let terms = Announcement { side: Side::Collects, ..Announcement::worked() };
    let bids: [&[_]; 2] = [&[(90_000, 100_000)]; 2];
    let given = allotted(&terms, &[40_000, 1, MOST], &bids);
    assert_eq!(given, (vec![(90001, 1, 50_000), (90002, 1, 50_000)], Some(90_000)));
}

#[test]
fn sixty_four_codes_each_with_a_limit() {
    let codes: Vec<u32> = (90_001..90_065).collect();
    let limits: Vec<u64> = (1..=64).collect();
    let message = Announcement::worked().write();
    let mut tender = Tender::open(&message, &codes, &limits).expect("the tender opens");
    for &code in &codes {
        receive(&mut tender, u64::from(code), 100_000, &[(150_000, 20_000)]);
    }
    assert_eq!(tender.close(Moment::of_numbers(DAY, 110_001)), Ok(()));
    let given = tender.allot().expect("the tender is allotted");
    let awards: Vec<u64> = tender.awards(&given).map(|award| award.cents).collect();
    assert_eq!((awards, given.marginal_rate), (limits, None));
}

#[test]
fn what_is_held_is_not_cut() {
    let message = Announcement::worked().write();
    let mut tender = Tender::open(&message, &CODES, &[1; 3]).expect("the tender opens");
    receive(&mut tender, 90002, 100_000, &[(150_000, 60_000)]);
    assert_eq!(tender.close(Moment::of_numbers(DAY, 110_001)), Ok(()));
    assert_eq!(tender.allot().map(|given| given.awards[10]), Ok(Amount(1)));
    assert_eq!(tender.book[1].bids[0].amount, Amount(60_000));
    assert_eq!(tender.book[1].cap, Some(Amount(1)));
}

#[test]
fn r16_looks_at_the_bids_before_the_cuts() {
    let message = Announcement::worked().write();
    let mut tender = Tender::open(&message, &CODES, &[1; 3]).expect("the tender opens");
    tender.state = State::Closed;
    tender.book[0].bids[0].amount = Amount(1_000_000_000_000_000_000);
    assert_eq!(tender.allot(), Err(Refusal::BidsExceed));
    tender.book[0].bids[0].amount.0 -= 1;
    assert!(tender.allot().is_ok());
}

#[test]
fn r19_and_r20_come_after_r07_in_this_order() {
    let message = Announcement::worked().write();
    let refusal = |codes: &[u32], limits: &[u64]| Tender::open(&message, codes, limits).err();
    let wide = [MOST + 1; 4];
    assert_eq!(refusal(&CODES, &[MOST; 3]), None);
    for count in [0, 1, 2, 4] {
        assert_eq!(refusal(&CODES, &wide[..count]), Some(Refusal::LimitsMiscounted));
    }
    for limits in [[MOST + 1, 0, 0], [0, 0, MOST + 1], [0, u64::MAX, 0]] {
        assert_eq!(refusal(&CODES, &limits), Some(Refusal::LimitTooLong));
    }
    for codes in [&[][..], &[2, 1], &[1, 100_000]] {
        assert_eq!(refusal(codes, &wide[..3]), Some(Refusal::BadCodes));
        assert_eq!(refusal(codes, &wide[..codes.len()]), Some(Refusal::BadCodes));
    }
    let other = Tender::open(&message[1..], &CODES, &wide[..1]);
    assert_eq!(other.err(), Some(Refusal::NotAnnouncement));
    assert_eq!(Refusal::LimitsMiscounted.number(), 19);
    assert_eq!(Refusal::LimitTooLong.number(), 20);
}

#[test]
fn r19_and_r20_are_the_same_where_the_treasury_collects() {
    let message = Announcement { side: Side::Collects, ..Announcement::worked() }.write();
    let refusal = |limits: &[u64]| Tender::open(&message, &CODES, limits).err();
    assert_eq!(refusal(&[0; 2]), Some(Refusal::LimitsMiscounted));
    assert_eq!(refusal(&[MOST + 1; 3]), Some(Refusal::LimitTooLong));
    assert_eq!(refusal(&[MOST; 3]), None);
}
