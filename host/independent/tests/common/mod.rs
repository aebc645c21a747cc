//! Sessions of the worked tender, their logs as text, and what calls on a tender give.
#![allow(dead_code)]

use independent::award::Allotment;
use independent::calendar::Moment;
use independent::compose::{draft, written, Announcement, Session};
use independent::session;
use independent::tender::Tender;

pub const DAY: u64 = 12_032_012;

/// A session with codes 90001 to 90003 and this announcement.
pub fn opened(announcement: &Announcement) -> Session {
    let mut session = Session::new();
    session.admit(&[90001, 90002, 90003]).announce(announcement);
    session
}

/// A session with the worked tender opened.
pub fn worked() -> Session {
    opened(&Announcement::worked())
}

/// An application of 90001 with these bids.
pub fn application(bids: &[(u64, u64)]) -> Vec<u8> {
    written(&draft(90001, 100_000, bids))
}

/// The log as text.
pub fn log(session: &Session) -> String {
    String::from_utf8(session::log(&session.bytes)).expect("the log is text")
}

/// The line for one message received in time by the worked tender.
pub fn answer(message: &[u8]) -> String {
    answer_at(DAY, 103_000, message)
}

/// The line for one message received at this clock, without its line end.
pub fn answer_at(date: u64, time: u64, message: &[u8]) -> String {
    let mut session = worked();
    log(session.receive(date, time, message)).trim_end().to_string()
}

/// Receives an application in time, which has no error.
pub fn receive(tender: &mut Tender, code: u64, time: u64, bids: &[(u64, u64)]) {
    let message = written(&draft(code, time, bids));
    let given = tender.receive(&message, Moment::of_numbers(DAY, 103_000), &mut [0; 436]);
    assert!(given.expect("the message is received").errors.is_empty());
}

/// The awards above zero, with their positions in book order, and the marginal rate.
pub type Told = (Vec<(usize, u64)>, Option<u32>);

pub fn told(given: &Allotment) -> Told {
    let awards = given.awards.iter().map(|award| award.0).enumerate();
    (awards.filter(|award| award.1 > 0).collect(), given.marginal_rate.map(|rate| rate.0))
}
