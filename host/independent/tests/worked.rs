//! Document 01's worked session and its cases M1 to M10, through the log.

mod common;

use common::{answer, answer_at, application, log, opened, worked, DAY};
use independent::compose::{draft, written, Announcement, Session};
use independent::session;
use std::io::{self, Read};

const ACCEPTED: &str = "C 12032012 103000 90001";
const WORKED_LOG: &str = "\
C 12032012 103000 90002
C 12032012 103101 90001
C 12032012 103500 90003
R 12032012 104000 90002 601 - 302
W 90001 01 00120000 000000000022223
W 90002 01 00150000 000000000060000
W 90003 01 00120000 000000000017777
";

fn worked_session() -> Session {
    let mut session = worked();
    let receptions = [
        (103_000, 90002, 102_900, (150_000, 60_000)),
        (103_101, 90001, 103_100, (120_000, 50_000)),
        (103_500, 90003, 103_400, (120_000, 40_000)),
        (104_000, 90002, 102_000, (150_000, 60_000)),
    ];
    for (received, code, time, bid) in receptions {
        session.receive(DAY, received, &written(&draft(code, time, &[bid])));
    }
    session.close(DAY, 110_001).allot();
    session
}

/// The awards of bids of one rate, one for each counterparty, with this amount offered.
fn shared(offered: u64, codes: &[u64]) -> String {
    let mut session = opened(&Announcement { offered, ..Announcement::worked() });
    for &code in codes {
        session.receive(DAY, 103_000, &written(&draft(code, 100_000, &[(150_000, 10_000)])));
    }
    let whole = log(session.close(DAY, 110_001).allot());
    whole.lines().filter(|line| line.starts_with('W')).map(|line| format!("{line}\n")).collect()
}

/// A reader that gives a few bytes at a time.
struct Drops<'a>(&'a [u8], usize);

impl Read for Drops<'_> {
    fn read(&mut self, space: &mut [u8]) -> io::Result<usize> {
        let count = self.1.min(self.0.len()).min(space.len());
        space[..count].copy_from_slice(&self.0[..count]);
        self.0 = &self.0[count..];
        Ok(count)
    }
}

#[test]
fn the_worked_session_has_the_printed_log() {
    assert_eq!(log(&worked_session()), WORKED_LOG);
}

#[test]
fn streaming_gives_the_same_log() {
    let session = worked_session();
    for size in [1, 2, 3, 5, 100, 1 << 20] {
        let mut out = Vec::new();
        session::stream(Drops(&session.bytes, size), &mut out).unwrap();
        assert_eq!(out, WORKED_LOG.as_bytes());
    }
}

#[test]
fn streaming_goes_on_past_its_buffers() {
    let mut session = worked_session();
    session.field(0xa1, &[b'x'; 65_535]);
    let many = session.bytes.repeat(40);
    let mut out = Vec::new();
    session::stream(Drops(&many, 70_001), &mut out).unwrap();
    assert_eq!(out, session::log(&many));
    assert_eq!(out.len(), 40 * (WORKED_LOG.len() + "R ----- 01\n".len()));
    let awards = session::log(&worked_session().bytes.repeat(2000));
    let mut streamed = Vec::new();
    session::stream(&worked_session().bytes.repeat(2000)[..], &mut streamed).unwrap();
    assert_eq!(streamed, awards);
}

#[test]
fn m1_the_cut_off_second_is_in_time() {
    let message = application(&[(150_000, 20_000)]);
    assert_eq!(answer_at(DAY, 110_000, &message), "C 12032012 110000 90001");
    assert_eq!(answer_at(DAY, 110_001, &message), "R 12032012 110001 90001 6G5 - 301");
    assert_eq!(answer_at(11_032_012, 235_959, &message), "C 11032012 235959 90001");
    assert_eq!(answer_at(13_032_012, 0, &message), "R 13032012 000000 90001 6G5 - 301");
}

#[test]
fn m2_minimum_and_increment() {
    assert_eq!(answer(&application(&[(150_000, 20_000)])), ACCEPTED);
    let off = answer(&application(&[(150_000, 25_000)]));
    assert_eq!(off, "R 12032012 103000 90001 6G6 - 906");
    let below = answer(&application(&[(150_000, 9_999)]));
    assert_eq!(below, "R 12032012 103000 90001 6G6 - 905");
}

#[test]
fn m3_a_fine_rate() {
    let fine = answer(&application(&[(120_500, 20_000)]));
    assert_eq!(fine, "R 12032012 103000 90001 6G6 - 904");
}

#[test]
fn m4_three_bids_pass() {
    assert_eq!(answer(&application(&[(150_000, 20_000); 3])), ACCEPTED);
    let four = answer(&application(&[(150_000, 20_000); 4]));
    assert_eq!(four, "R 12032012 103000 90001 6G6 - 903");
}

#[test]
fn m5_the_limit_rate_is_in() {
    let mut session = worked();
    session.receive(DAY, 103_000, &application(&[(100_000, 10_000), (99_000, 10_000)]));
    let expected = format!("{ACCEPTED}\nW 90001 01 00100000 000000000010000\n");
    assert_eq!(log(session.close(DAY, 110_001).allot()), expected);
}

#[test]
fn m6_leap_days() {
    let on = |date| {
        let mut message = draft(90001, 100_000, &[(150_000, 10_000)]);
        message.date = date;
        answer(&written(&message))
    };
    assert_eq!(on(29_022_012), "R 12032012 103000 90001 D31 - 522");
    assert_eq!(on(29_022_011), "R 12032012 103000 90001 D31 - 502");
}

#[test]
fn m7_is_the_worked_log_in_any_order_of_arrival() {
    let mut session = worked();
    for (code, amount) in [(90003, 40_000), (90001, 50_000)] {
        session.receive(DAY, 100_000, &written(&draft(code, 100_000, &[(120_000, amount)])));
    }
    session.receive(DAY, 100_000, &written(&draft(90002, 100_000, &[(150_000, 60_000)])));
    let given = log(session.close(DAY, 110_001).allot());
    let awards = WORKED_LOG.find('W').unwrap();
    assert!(given.ends_with(&WORKED_LOG[awards..]));
}

#[test]
fn m8_an_even_share() {
    let expected = "W 90001 01 00150000 000000000007500\nW 90002 01 00150000 000000000007500\n";
    assert_eq!(shared(15_000, &[90002, 90001]), expected);
}

#[test]
fn m9_cents_go_by_book_order() {
    let expected = "\
W 90001 01 00150000 000000000003334
W 90002 01 00150000 000000000003333
W 90003 01 00150000 000000000003333
";
    assert_eq!(shared(10_000, &[90003, 90002, 90001]), expected);
}

#[test]
fn m10_ten_zero_places_cancel_and_their_time_stays() {
    let mut session = worked();
    let bids = [(150_000, 10_000)];
    session.receive(DAY, 103_000, &written(&draft(90001, 100_000, &bids)));
    session.receive(DAY, 103_000, &written(&draft(90001, 100_100, &[])));
    session.receive(DAY, 103_000, &written(&draft(90001, 100_030, &bids)));
    let refused = "R 12032012 103000 90001 601 - 302";
    let expected = format!("{ACCEPTED}\n{ACCEPTED}\n{refused}\n");
    assert_eq!(log(session.close(DAY, 110_001).allot()), expected);
}
