//! Every refusal that the log can show, and everything that ends it.

mod common;

use common::{application, log, opened, worked, DAY};
use independent::award::Side;
use independent::compose::{Announcement, Session};

const BID: (u64, u64) = (150_000, 10_000);

/// The log of the worked tender's announcement after these bytes are put at this index.
fn announced(start: usize, bytes: &[u8]) -> String {
    let mut message = Announcement::worked().write();
    message[start..start + bytes.len()].copy_from_slice(bytes);
    let mut session = Session::new();
    log(session.admit(&[90001]).field(0xa1, &message))
}

fn told(change: impl Fn(&mut Announcement)) -> String {
    let mut announcement = Announcement::worked();
    change(&mut announcement);
    log(&opened(&announcement))
}

#[test]
fn r01_the_envelope_of_an_announcement() {
    let whole = Announcement::worked().write();
    assert_eq!(whole.len(), 225);
    let mut longer = whole.clone();
    longer.push(0);
    for message in [&whole[..224], &longer, b"", &[0; 65_535]] {
        assert_eq!(log(Session::new().admit(&[1]).field(0xa1, message)), "R ----- 01\n");
    }
    for start in [0, 1, 2, 6, 14, 22, 36, 47, 56, 70, 91, 194, 205, 216] {
        assert_eq!(announced(start, b"\x77"), "R ----- 01\n");
    }
}

#[test]
fn r02_type_and_sender() {
    assert_eq!(announced(3, b"6G1"), "R ----- 02\n");
    assert_eq!(announced(9, b"01001"), "R ----- 02\n");
    assert_eq!(announced(9, b"0100x"), "R ----- 02\n");
}

#[test]
fn r03_malformed() {
    let fields: [(usize, &[u8]); 16] = [
        (17, b"9000X"),
        (25, b" "),
        (39, b"30022012"),
        (50, b"240000"),
        (59, b"T-2012/0001"),
        (59, b"T/2012-0001"),
        (59, b"T/2012/000x"),
        (94, b"29022011"),
        (102, b"-"),
        (103, b" 3"),
        (106, b" "),
        (185, b"0"),
        (193, b"x"),
        (197, b"00032012"),
        (208, b"12132012"),
        (219, b"110060"),
    ];
    for (start, bytes) in fields {
        assert_eq!(announced(start, bytes), "R ----- 03\n", "at {start}");
    }
}

#[test]
fn r04_type_of_the_operation() {
    for (start, bytes) in [(79, b"LX"), (84, b"X/"), (73, b"nc"), (81, b"-R"), (89, b"MX")] {
        assert_eq!(announced(start, bytes), "R ----- 04\n");
    }
    for (start, bytes) in [(79, b"LA"), (84, b"N/")] {
        assert_eq!(announced(start, bytes), "");
    }
}

#[test]
fn r05_impossible_terms() {
    assert_eq!(told(|terms| terms.most_bids = 0), "R ----- 05\n");
    assert_eq!(told(|terms| terms.most_bids = 11), "R ----- 05\n");
    assert_eq!(told(|terms| terms.offered = 0), "R ----- 05\n");
    assert_eq!(told(|terms| terms.minimum = 0), "R ----- 05\n");
    assert_eq!(told(|terms| terms.increment = 0), "R ----- 05\n");
    assert_eq!(told(|terms| terms.maximum = 9_999), "R ----- 05\n");
    assert_eq!(told(|terms| terms.maximum = 10_000), "");
    assert_eq!(told(|terms| terms.most_bids = 10), "");
}

#[test]
fn r06_disordered_dates() {
    assert_eq!(told(|terms| terms.reference = 13_032_012), "R ----- 06\n");
    assert_eq!(told(|terms| terms.spot = 11_032_012), "R ----- 06\n");
    assert_eq!(told(|terms| terms.forward = 14_032_012), "R ----- 06\n");
    assert_eq!(told(|terms| terms.reference = 31_122_011), "");
    assert_eq!(told(|terms| terms.spot = DAY), "");
    assert_eq!(told(|terms| terms.forward = 1_042_012), "");
}

#[test]
fn r07_admitted_codes() {
    let with = |codes: &[u64]| {
        let mut session = Session::new();
        log(session.admit(codes).announce(&Announcement::worked()))
    };
    let many: Vec<u64> = (0..65).collect();
    for codes in [&[][..], &[1, 1], &[2, 1], &many] {
        assert_eq!(with(codes), "R ----- 07\n");
    }
    assert_eq!(with(&many[..64]), "");
    assert_eq!(with(&[0, 99_999]), "");
    assert_eq!(log(Session::new().announce(&Announcement::worked())), "R ----- 07\n");
}

#[test]
fn the_lowest_refusal_of_an_announcement_comes_first() {
    let mut message = Announcement::worked().write();
    let mut expected = Vec::new();
    let damages: [(usize, &[u8], &str); 6] = [
        (208, b"12032012", "06"),
        (103, b"00", "05"),
        (79, b"LX", "04"),
        (219, b"x", "03"),
        (9, b"x", "02"),
        (0, b"x", "01"),
    ];
    let mut session = Session::new();
    for (start, bytes, number) in damages {
        message[start..start + bytes.len()].copy_from_slice(bytes);
        session.field(0xa1, &message);
        expected.push(format!("R ----- {number}\n"));
    }
    assert_eq!(log(&session), expected.concat());
}

#[test]
fn r08_a_revoked_tender() {
    let mut session = worked();
    session.revoke().receive(0, 0, b"").close(0, 0).allot().revoke();
    assert_eq!(log(&session), "R ----- 08\n".repeat(4));
}

#[test]
fn r09_r15_a_closed_and_an_announced_tender() {
    let mut session = worked();
    session.close(DAY, 110_001).receive(0, 0, b"").close(0, 0).allot();
    session.receive(0, 0, b"").close(0, 0).allot().revoke();
    let expected = ["09", "09", "09", "09", "15", "15"];
    assert_eq!(log(&session), expected.map(|n| format!("R ----- {n}\n")).concat());
    assert_eq!(log(worked().close(DAY, 110_001).revoke().allot()), "R ----- 08\n");
}

#[test]
fn r10_an_invalid_clock() {
    let mut session = worked();
    session.receive(29_022_011, 100_000, b"").receive(DAY, 240_000, b"").close(0, 110_001);
    session.field(0xa2, b"1203201210300x").field(0xa3, b"xxxxxxxxxxxxxx");
    assert_eq!(log(&session), "R ----- 10\n".repeat(5));
}

#[test]
fn r12_an_unreadable_message() {
    let message = application(&[BID]);
    let mut swapped = message.clone();
    swapped[6] = 5;
    let mut session = worked();
    session.receive(DAY, 100_000, b"").receive(DAY, 100_000, &message[..338]);
    session.receive(DAY, 120_000, &[&message[..], b"\0"].concat());
    session.receive(DAY, 100_000, &swapped);
    assert_eq!(log(&session), "R ----- 12\n".repeat(4));
}

#[test]
fn r13_r14_before_the_cut_off() {
    let mut session = worked();
    session.close(DAY, 110_000).allot().close(11_032_012, 235_959).allot();
    session.close(13_032_012, 0).allot();
    assert_eq!(log(&session), "R ----- 13\nR ----- 14\n".repeat(2));
}

#[test]
fn steps_before_a_tender_are_skipped() {
    let mut session = Session::new();
    session.receive(DAY, 100_000, &application(&[BID])).close(0, 0).revoke().allot();
    session.announce(&Announcement::worked()).close(0, 0);
    assert_eq!(log(&session), "R ----- 07\n");
}

#[test]
fn a_refused_announcement_keeps_the_tender_and_its_list() {
    let mut session = worked();
    session.admit(&[]).announce(&Announcement::worked());
    session.receive(DAY, 103_000, &application(&[BID])).close(DAY, 110_001).allot();
    let award = "W 90001 01 00150000 000000000010000\n";
    assert_eq!(log(&session), format!("R ----- 07\nC 12032012 103000 90001\n{award}"));
}

#[test]
fn an_accepted_announcement_starts_anew() {
    let mut session = worked();
    session.receive(DAY, 103_000, &application(&[BID]));
    session.announce(&Announcement { side: Side::Collects, ..Announcement::worked() });
    session.receive(DAY, 103_000, &application(&[(101_000, 10_000), (0, 10_000)]));
    session.close(DAY, 110_001).allot();
    let award = "W 90001 02 00000000 000000000010000\n";
    assert_eq!(log(&session), format!("{}{award}", "C 12032012 103000 90001\n".repeat(2)));
}

#[test]
fn what_breaks_a_session_ends_its_log() {
    let raw: [&[u8]; 16] = [
        b"\xa5",
        b"\xa5\0",
        b"\xa5\0\x01",
        b"\xa2\0\x0e12032012",
        b"\x01\0\x036G1",
        b"\x98\0\0",
        b"\xa6\0\0",
        b"\0\0\0",
        b"\xa0\0\x049000",
        b"\xa0\0\x059000X",
        b"\xa0\0\x0a90001     ",
        b"\xa2\0\x0d1203201210000",
        b"\xa3\0\x0d1203201211000",
        b"\xa3\0\x0f120320121100011",
        b"\xa4\0\x01x",
        b"\xa5\0\x01x",
    ];
    for ending in raw {
        let mut session = worked();
        session.allot().bytes.extend_from_slice(ending);
        assert_eq!(log(session.allot()), "R ----- 14\n", "{ending:x?}");
        let mut early = Session::new();
        early.bytes.extend_from_slice(ending);
        assert_eq!(log(early.announce(&Announcement::worked())), "", "{ending:x?}");
    }
}
