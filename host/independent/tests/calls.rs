//! The calls of a tender: replies byte for byte, refusals that a log cannot show, and what is held.

mod common;

use common::{application, told, Told, DAY};
use independent::award::{Allotment, Amount, Bid, Rate};
use independent::calendar::Moment;
use independent::compose::{draft, written, Announcement};
use independent::refusal::Refusal;
use independent::tender::{State, Tender};

const BID: (u64, u64) = (150_000, 20_000);
/// What stands in a space before a call.
const MARK: u8 = 0xa5;

fn opened(announcement: &Announcement) -> Tender {
    let codes = [90001, 90002, 90003];
    Tender::open(&announcement.write(), &codes, &[0; 3]).expect("the tender opens")
}

fn worked() -> Tender {
    opened(&Announcement::worked())
}

/// What a message got: the codes of its errors, and the reply.
#[derive(Debug, PartialEq)]
struct Answer {
    errors: Vec<u64>,
    reply: Vec<u8>,
}

/// Receives a message at this clock with a space of 500 bytes, in which only the reply may change.
fn receive_at(tender: &mut Tender, clock: (u64, u64), message: &[u8]) -> Answer {
    let mut space = [MARK; 500];
    let clock = Moment::of_numbers(clock.0, clock.1);
    let given = tender.receive(message, clock, &mut space).expect("the call is not refused");
    assert!(space[given.length..].iter().all(|&byte| byte == MARK), "bytes past a reply stay");
    let errors: Vec<_> = given.errors.codes().collect();
    assert_eq!(given.errors.count(), errors.len());
    Answer { errors, reply: space[..given.length].to_vec() }
}

fn errors_at(clock: (u64, u64), message: &[u8]) -> Vec<u64> {
    receive_at(&mut worked(), clock, message).errors
}

fn errors_of(message: &[u8]) -> Vec<u64> {
    errors_at((DAY, 103_000), message)
}

fn apply(tender: &mut Tender, code: u64, time: u64, bids: &[(u64, u64)]) -> Vec<u64> {
    receive_at(tender, (DAY, 103_000), &written(&draft(code, time, bids))).errors
}

fn close_and_allot(tender: &mut Tender) -> Allotment {
    assert_eq!(tender.close(Moment::of_numbers(DAY, 110_001)), Ok(()));
    let given = tender.allot().expect("the tender is allotted");
    assert_eq!(tender.state, State::Announced);
    given
}

fn allotted(tender: &mut Tender) -> Told {
    told(&close_and_allot(tender))
}

fn bids(places: &[(u64, u64)]) -> [Bid; 10] {
    let mut bids = [Bid::ZERO; 10];
    for (bid, &(rate, amount)) in bids.iter_mut().zip(places) {
        *bid = Bid { rate: Rate(rate as u32), amount: Amount(amount) };
    }
    bids
}

/// The reference time and the bids that are held for a code.
fn held(tender: &Tender, code: u64) -> (Option<u64>, [Bid; 10]) {
    let holding = tender.held(code).expect("the code is admitted");
    (holding.time.map(|time| time.number()), holding.bids)
}

#[test]
fn m1_the_cut_off_second() {
    let message = application(&[BID]);
    assert_eq!(errors_at((DAY, 110_000), &message), []);
    assert_eq!(errors_at((DAY, 110_001), &message), [301]);
    assert_eq!(errors_at((11_032_012, 235_959), &message), []);
    assert_eq!(errors_at((13_032_012, 0), &message), [301]);
}

#[test]
fn m2_to_m4_amounts_rates_and_bids() {
    assert_eq!(errors_of(&application(&[(150_000, 20_000)])), []);
    assert_eq!(errors_of(&application(&[(150_000, 25_000)])), [906]);
    assert_eq!(errors_of(&application(&[(150_000, 9_999)])), [905]);
    assert_eq!(errors_of(&application(&[(120_500, 20_000)])), [904]);
    assert_eq!(errors_of(&application(&[BID; 3])), []);
    assert_eq!(errors_of(&application(&[BID; 4])), [903]);
}

#[test]
fn m5_the_limit_rate_is_in() {
    let mut tender = worked();
    assert_eq!(apply(&mut tender, 90001, 100_000, &[(100_000, 10_000), (99_000, 10_000)]), []);
    assert_eq!(allotted(&mut tender), (vec![(0, 10_000)], None));
}

#[test]
fn m6_leap_days() {
    let on = |date| {
        let mut message = draft(90001, 100_000, &[BID]);
        message.date = date;
        errors_of(&written(&message))
    };
    assert_eq!(on(29_022_012), [522]);
    assert_eq!(on(29_022_011), [502]);
}

#[test]
fn m7_the_worked_awards() {
    let mut tender = worked();
    assert_eq!(apply(&mut tender, 90002, 102_900, &[(150_000, 60_000)]), []);
    assert_eq!(apply(&mut tender, 90001, 103_100, &[(120_000, 50_000)]), []);
    assert_eq!(apply(&mut tender, 90003, 103_400, &[(120_000, 40_000)]), []);
    assert_eq!(apply(&mut tender, 90002, 102_000, &[(150_000, 60_000)]), [302]);
    let awards = vec![(0, 22_223), (10, 60_000), (20, 17_777)];
    assert_eq!(allotted(&mut tender), (awards, Some(120_000)));
}

#[test]
fn m8_and_m9_shares() {
    let shared = |offered, codes: &[u64]| {
        let mut tender = opened(&Announcement { offered, ..Announcement::worked() });
        for &code in codes {
            assert_eq!(apply(&mut tender, code, 100_000, &[(150_000, 10_000)]), []);
        }
        allotted(&mut tender)
    };
    let even = vec![(0, 7_500), (10, 7_500)];
    assert_eq!(shared(15_000, &[90002, 90001]), (even, Some(150_000)));
    let cent = vec![(0, 3_334), (10, 3_333), (20, 3_333)];
    assert_eq!(shared(10_000, &[90003, 90002, 90001]), (cent, Some(150_000)));
}

#[test]
fn m10_ten_zero_places_cancel() {
    let mut tender = worked();
    assert_eq!(apply(&mut tender, 90001, 100_000, &[BID]), []);
    assert_eq!(held(&tender, 90001), (Some(100_000), bids(&[BID])));
    assert_eq!(apply(&mut tender, 90001, 100_100, &[]), []);
    assert_eq!(held(&tender, 90001), (Some(100_100), bids(&[])));
    assert_eq!(apply(&mut tender, 90001, 100_030, &[BID]), [302]);
    assert_eq!(allotted(&mut tender), (vec![], None));
}

#[test]
fn what_is_held_is_the_latest_by_reference_time() {
    let mut tender = worked();
    assert_eq!(held(&tender, 90003), (None, bids(&[])));
    assert!(tender.held(90004).is_none());
    assert!(tender.held(90001 + (1 << 32)).is_none());
    assert_eq!(apply(&mut tender, 90003, 0, &[BID, BID]), []);
    assert_eq!(held(&tender, 90003), (Some(0), bids(&[BID, BID])));
    assert_eq!(apply(&mut tender, 90003, 0, &[]), [302]);
    assert_eq!(apply(&mut tender, 90003, 2, &[(150_000, 1)]), [905]);
    assert_eq!(held(&tender, 90003), (Some(0), bids(&[BID, BID])));
    assert_eq!(apply(&mut tender, 90003, 1, &[(120_000, 10_000)]), []);
    assert_eq!(held(&tender, 90003), (Some(1), bids(&[(120_000, 10_000)])));
    assert_eq!(held(&tender, 90002), (None, bids(&[])));
}

#[test]
fn a_confirmation_byte_for_byte() {
    let mut message = draft(90002, 102_900, &[BID]);
    message.cro = 12_345_678_901;
    let answer = receive_at(&mut worked(), (DAY, 93_005), &written(&message));
    let fields: [&[u8]; 6] = [
        b"\x01\0\x036G2",
        b"\x04\0\x0501000",
        b"\x05\0\x0590002",
        b"\x22\0\x0b12345678901",
        b"\x60\0\x06093005",
        b"\x70\0\x0bT/2012/0001",
    ];
    assert_eq!(answer, Answer { errors: vec![], reply: fields.concat() });
    assert_eq!(answer.reply.len(), 59);
}

/// RE01 for this message with this text of errors.
fn re01(message: &[u8], errors: &[u8]) -> Vec<u8> {
    let wrong = b"\x98\0\x18*** MESSAGGIO ERRATO ***";
    [message, wrong, &[0x98, 0, errors.len() as u8], errors].concat()
}

#[test]
fn re01_byte_for_byte_with_one_five_and_six_errors() {
    let mut message = draft(90001, 100_000, &[(150_000, 9_999)]);
    let one = receive_at(&mut worked(), (DAY, 103_000), &written(&message));
    assert_eq!(one, Answer { errors: vec![905], reply: re01(&written(&message), b"6G6 - 905") });
    assert_eq!(one.reply.len(), 378);

    message.kind = b"XXX";
    message.sender.code = 1;
    message.recipient.code = 1;
    message.date = 1;
    let five = receive_at(&mut worked(), (DAY, 103_000), &written(&message));
    let text = b"001 - 900/040 - 300/050 - 599/D31 - 502/6G6 - 905";
    assert_eq!(five.errors, [900, 300, 599, 502, 905]);
    assert_eq!(five.reply, re01(&written(&message), text));
    assert_eq!(five.reply.len(), 418);

    let six = receive_at(&mut worked(), (DAY, 110_001), &written(&message));
    let text = b"001 - 900/040 - 300/050 - 599/D31 - 502/999 - 999";
    assert_eq!(six.errors, [900, 300, 599, 502, 905, 301]);
    assert_eq!(six.reply, re01(&written(&message), text));
}

#[test]
fn all_errors_at_once_are_fifteen() {
    let announcement = Announcement { maximum: 20_000, most_bids: 1, ..Announcement::worked() };
    let places = [(0, 0), (150_001, 9_999), (150_000, 25_000)];
    let mut message = written(&draft(1, 240_000, &places));
    for (start, byte) in [(3, b'X'), (17, b'X'), (25, b'X'), (39, b'X'), (59, b'X'), (67, b'X')] {
        message[start] = byte;
    }
    let given = receive_at(&mut opened(&announcement), (DAY, 110_001), &message).errors;
    let places = [902, 903, 904, 905, 906, 907];
    let expected = [&[900, 300, 599, 521, 502, 503, 908, 303], &places[..], &[301]].concat();
    assert_eq!(given, expected);
}

#[test]
fn r11_a_space_of_435_bytes_is_refused_and_one_of_436_is_not() {
    let mut tender = worked();
    let clock = Moment::of_numbers(DAY, 103_000);
    let message = application(&[BID]);
    let before = tender.clone();
    for room in [0, 1, 59, 418, 435] {
        let mut space = vec![MARK; room];
        let given = tender.receive(&message, clock, &mut space);
        assert_eq!(given.err(), Some(Refusal::ReplySpaceShort));
        assert_eq!(space, vec![MARK; room]);
        assert_eq!(tender, before);
    }
    let mut space = [MARK; 436];
    let given = tender.receive(&message, clock, &mut space).expect("436 bytes are enough");
    assert_eq!(given.length, 59);
    assert_eq!(space[59..], [MARK; 377]);
}

#[test]
fn r11_stands_between_the_clock_and_the_envelope() {
    let refusal = |tender: &mut Tender, clock, message: &[u8]| {
        tender.receive(message, clock, &mut [0; 435]).err()
    };
    let clock = Moment::of_numbers(DAY, 103_000);
    let mut tender = worked();
    assert_eq!(refusal(&mut tender, clock, b""), Some(Refusal::ReplySpaceShort));
    assert_eq!(refusal(&mut tender, None, b""), Some(Refusal::ClockInvalid));
    assert_eq!(tender.close(Moment::of_numbers(DAY, 110_001)), Ok(()));
    assert_eq!(refusal(&mut tender, None, b""), Some(Refusal::Over));
    assert_eq!(tender.revoke(), Ok(()));
    assert_eq!(refusal(&mut tender, None, b""), Some(Refusal::Revoked));
}

#[test]
fn r16_bids_beyond_the_most_cents() {
    let most = 999_999_999_999_999_999;
    let mut tender = worked();
    assert_eq!(apply(&mut tender, 90001, 100_000, &[BID]), []);
    assert_eq!(tender.close(Moment::of_numbers(DAY, 110_001)), Ok(()));
    for amount in [most - 20_000 + 1, u64::MAX] {
        tender.book[2].bids[9].amount = Amount(amount);
        let before = tender.clone();
        assert_eq!(tender.allot(), Err(Refusal::BidsExceed));
        assert_eq!(tender, before);
    }
    tender.book[2].bids[9].amount = Amount(most - 20_000);
    let given = tender.allot().expect("the most cents are allotted");
    assert_eq!(given.marginal_rate, None);
    assert_eq!(given.awards[0], Amount(20_000));
    assert_eq!(tender.state, State::Announced);
}

#[test]
fn a_bid_of_no_amount_gets_none() {
    let mut tender = worked();
    tender.book[0].bids[0].rate = Rate(150_000);
    assert_eq!(allotted(&mut tender), (vec![], None));
}

#[test]
fn the_terms_are_those_announced() {
    let told = Announcement { maximum: 30_000, minimum_allocation: 7, ..Announcement::worked() };
    let terms = opened(&told).terms;
    assert_eq!(terms.identifier, *b"T/2012/0001");
    assert_eq!(terms.execution.number(), 12_032_012);
    assert_eq!(terms.cut_off.time.number(), 110_000);
    assert_eq!((terms.most_bids, terms.minimum_allocation), (3, Amount(7)));
    assert_eq!(terms.maximum, Some(Amount(30_000)));
    assert_eq!(terms.offer.limit, Rate(100_000));
}
