//! Every error of an application, alone and together.

mod common;

use common::{answer, answer_at, log, opened, worked, DAY};
use independent::application::Draft;
use independent::compose::{draft, written, Announcement};

const BID: (u64, u64) = (150_000, 10_000);

/// The errors of a sound application after this change of its draft.
fn drafted(change: impl Fn(&mut Draft)) -> String {
    let mut message = draft(90001, 100_000, &[BID]);
    change(&mut message);
    errors_of(&written(&message))
}

/// The errors of a sound application after these bytes are put at this index.
fn altered(start: usize, bytes: &[u8]) -> String {
    let mut message = written(&draft(90001, 100_000, &[BID]));
    message[start..start + bytes.len()].copy_from_slice(bytes);
    errors_of(&message)
}

fn bids(places: &[(u64, u64)]) -> String {
    errors_of(&written(&draft(90001, 100_000, places)))
}

fn errors_of(message: &[u8]) -> String {
    let line = answer(message);
    if line.starts_with("C ") {
        return "none".to_string();
    }
    assert!(line.starts_with("R 12032012 103000 "));
    line[24..].to_string()
}

const SENDER: usize = 9;
const CRO: usize = 25;
const DATE: usize = 39;
const TIME: usize = 50;
const CHECK_DIGIT: usize = 59;
const IDENTIFIER: usize = 67;
const PLACES: usize = 81;

#[test]
fn a_sound_message_has_none() {
    assert_eq!(drafted(|_| ()), "none");
    assert_eq!(drafted(|message| message.name = b"\0\n\xff            "), "none");
    assert_eq!(drafted(|message| message.time = 0), "none");
}

#[test]
fn e900_other_type() {
    assert_eq!(drafted(|message| message.kind = b"6G2"), "001 - 900");
    assert_eq!(drafted(|message| message.kind = b"6g1"), "001 - 900");
}

#[test]
fn e309_and_e300_sender() {
    assert_eq!(altered(SENDER, b"9000X"), "040 - 309");
    assert_eq!(altered(SENDER, b"     "), "040 - 309");
    assert_eq!(drafted(|message| message.sender.code = 90_004), "040 - 300");
    assert_eq!(drafted(|message| message.sender.code = 0), "040 - 300");
}

#[test]
fn e599_recipient() {
    assert_eq!(drafted(|message| message.recipient.code = 1001), "050 - 599");
    assert_eq!(altered(17, b"1000 "), "050 - 599");
}

#[test]
fn e521_cro() {
    assert_eq!(altered(CRO, b"A"), "020 - 521");
}

#[test]
fn e502_and_e522_date() {
    assert_eq!(altered(DATE, b"1203201X"), "D31 - 502");
    assert_eq!(drafted(|message| message.date = 31_121_899), "D31 - 502");
    assert_eq!(drafted(|message| message.date = 13_032_012), "D31 - 522");
}

#[test]
fn e503_time() {
    assert_eq!(drafted(|message| message.time = 240_000), "601 - 503");
    assert_eq!(drafted(|message| message.time = 105_960), "601 - 503");
    assert_eq!(altered(TIME, b"1000 0"), "601 - 503");
}

#[test]
fn e908_check_digit() {
    assert_eq!(altered(CHECK_DIGIT, b"1234x"), "010 - 908");
}

#[test]
fn e303_identifier() {
    assert_eq!(drafted(|message| message.identifier = b"T/2012/0002"), "6G0 - 303");
    assert_eq!(altered(IDENTIFIER, b"t"), "6G0 - 303");
}

#[test]
fn e901_a_malformed_place_hides_the_rest() {
    assert_eq!(altered(PLACES + 8, b":"), "6G6 - 901");
    assert_eq!(altered(PLACES + 9 * 24, &[b' '; 24]), "6G6 - 901");
    assert_eq!(altered(PLACES + 24, &[b'0'; 24]), "6G6 - 901");
    assert_eq!(altered(PLACES, b"00150500/00000000000999x"), "6G6 - 901");
}

#[test]
fn e902_gap() {
    assert_eq!(bids(&[(0, 0), BID]), "6G6 - 902");
    assert_eq!(bids(&[BID, (0, 0), BID]), "6G6 - 902");
    assert_eq!(bids(&[(0, 10_000), BID]), "none");
}

#[test]
fn e903_too_many() {
    assert_eq!(bids(&[BID; 3]), "none");
    assert_eq!(bids(&[BID; 4]), "6G6 - 903");
    assert_eq!(bids(&[(0, 0), BID, BID, BID]), "6G6 - 902");
}

#[test]
fn e904_fine_rate() {
    for rate in [150_001, 150_010, 150_100] {
        assert_eq!(bids(&[(rate, 10_000)]), "6G6 - 904");
    }
}

#[test]
fn e905_and_e906_amounts() {
    assert_eq!(bids(&[(150_000, 9_999)]), "6G6 - 905");
    assert_eq!(bids(&[(150_000, 0)]), "6G6 - 905");
    assert_eq!(bids(&[(150_000, 10_001)]), "6G6 - 906");
    assert_eq!(bids(&[(150_000, 9_999), (150_000, 10_001)]), "6G6 - 905/6G6 - 906");
}

#[test]
fn e906_counts_from_the_minimum() {
    let mut session = opened(&Announcement { increment: 7000, ..Announcement::worked() });
    for (time, amount) in [(100_001, 17_000), (100_002, 14_000)] {
        session.receive(DAY, 103_000, &written(&draft(90001, time, &[(150_000, amount)])));
    }
    let expected = "C 12032012 103000 90001\nR 12032012 103000 90001 6G6 - 906\n";
    assert_eq!(log(&session), expected);
}

#[test]
fn e907_total() {
    let mut session = opened(&Announcement { maximum: 20_000, ..Announcement::worked() });
    for (time, amount) in [(100_001, 10_000), (100_002, 20_000)] {
        let bids = [BID, (140_000, amount)];
        session.receive(DAY, 103_000, &written(&draft(90001, time, &bids)));
    }
    let expected = "C 12032012 103000 90001\nR 12032012 103000 90001 6G6 - 907\n";
    assert_eq!(log(&session), expected);
}

#[test]
fn e301_late() {
    let message = written(&draft(90001, 100_000, &[BID]));
    assert_eq!(answer_at(DAY, 110_001, &message), "R 12032012 110001 90001 6G5 - 301");
}

#[test]
fn e302_superseded() {
    let mut session = worked();
    for time in [0, 0, 1, 0] {
        session.receive(DAY, 103_000, &written(&draft(90001, time, &[BID])));
    }
    let (held, old) = ("C 12032012 103000 90001\n", "R 12032012 103000 90001 601 - 302\n");
    assert_eq!(log(&session), [held, old, held, old].concat());
}

#[test]
fn an_application_in_error_changes_nothing() {
    let mut session = worked();
    session.receive(DAY, 103_000, &written(&draft(90001, 100_000, &[BID])));
    session.receive(DAY, 103_000, &written(&draft(90001, 100_002, &[(150_000, 1)])));
    session.receive(DAY, 110_001, &written(&draft(90001, 100_002, &[])));
    session.receive(DAY, 103_000, &written(&draft(90001, 100_001, &[(150_000, 20_000)])));
    let given = log(session.close(DAY, 110_001).allot());
    assert!(given.ends_with("C 12032012 103000 90001\nW 90001 01 00150000 000000000020000\n"));
}

#[test]
fn over_five_errors_end_with_999() {
    let five = drafted(|message| {
        message.kind = b"XXX";
        message.sender.code = 1;
        message.recipient.code = 1;
        message.date = 1;
        message.time = 999_999;
    });
    assert_eq!(five, "001 - 900/040 - 300/050 - 599/D31 - 502/601 - 503");
    let six = drafted(|message| {
        message.kind = b"XXX";
        message.sender.code = 1;
        message.recipient.code = 1;
        message.date = 1;
        message.time = 999_999;
        message.identifier = b"T/0000/0000";
    });
    assert_eq!(six, "001 - 900/040 - 300/050 - 599/D31 - 502/999 - 999");
}

#[test]
fn a_sender_is_shown_as_it_came() {
    let mut message = written(&draft(90001, 100_000, &[BID]));
    message[SENDER..SENDER + 5].copy_from_slice(b"\0\n\xff A");
    let mut session = worked();
    session.receive(DAY, 103_000, &message);
    let given = independent::session::log(&session.bytes);
    assert_eq!(given, b"R 12032012 103000 \0\n\xff A 040 - 309\n");
}
