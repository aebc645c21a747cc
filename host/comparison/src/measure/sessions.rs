//! The sessions that are measured.

use crate::damage::fields_of;
use crate::random::Random;
use crate::sessions::days::seconds_away;
use crate::sessions::{generate, DEFAULT_SEED};
use independent::application::PLACES;
use independent::award::Side;
use independent::compose::{draft, written, Announcement, Session};
use independent::session::log_with_end;

const DAY: u64 = 12_032_012;
const CODES: u64 = 64;
const RECEPTIONS: u64 = 200_000;
const MIXED_FIELDS: usize = 200_000;
const TENDERS: u64 = 300;
const BIDS: usize = CODES as usize * PLACES;

/// The worked tender for ten bids of any amount, with everything in.
fn announcement(side: Side, offered: u64) -> Announcement {
    let limit = if side == Side::Invests { 0 } else { 99_999_999 };
    let (minimum, increment) = (1, 1);
    let worked = Announcement::worked();
    Announcement { side, offered, most_bids: 10, minimum, increment, limit, ..worked }
}

fn codes() -> Vec<u64> {
    (90_001..90_001 + CODES).collect()
}

/// Applications of 64 codes with rising reference times, so that each is accepted.
pub fn receptions() -> Vec<u8> {
    let mut session = Session::new();
    session.admit(&codes()).announce(&announcement(Side::Invests, 1_000_000));
    for index in 0..RECEPTIONS {
        let time = seconds_away(0, (index / CODES) as i64);
        let bids: [_; PLACES] =
            std::array::from_fn(|k| (1000 * (index % 977 + k as u64), 1 + index));
        let filled = &bids[..1 + index as usize % PLACES];
        session.receive(DAY, 103_000, &written(&draft(90_001 + index % CODES, time, filled)));
    }
    session.bytes
}

/// Generated sessions one after another, without those that end the log.
pub fn mixed() -> Vec<u8> {
    let mut bytes = Vec::new();
    let mut fields = 0;
    let sessions = (DEFAULT_SEED..).map(generate::session);
    for session in sessions.filter(|session| log_with_end(session).1 == session.len()) {
        fields += fields_of(&session).len();
        bytes.extend_from_slice(&session);
        if fields >= MIXED_FIELDS {
            break;
        }
    }
    bytes
}

/// Tenders in which all 640 places are filled, each at a rate of its own.
pub fn different_rates() -> Vec<u8> {
    tenders(|random| {
        let mut rates: [u64; BIDS] = std::array::from_fn(|index| 1000 * (index as u64 + 1));
        for index in (1..BIDS).rev() {
            rates.swap(index, random.index(index + 1));
        }
        rates
    })
}

/// Tenders in which all 640 places are filled at one rate.
pub fn one_rate() -> Vec<u8> {
    tenders(|_| [150_000; BIDS])
}

/// Tenders with bids at these rates, of which about half can be served, closed and allotted.
fn tenders(rates: impl Fn(&mut Random) -> [u64; BIDS]) -> Vec<u8> {
    let random = &mut Random::new(9);
    let mut session = Session::new();
    session.admit(&codes());
    for index in 0..TENDERS {
        let amounts: [u64; BIDS] = std::array::from_fn(|_| 1 + random.below(1_000_000_000_000));
        let side = if index % 2 == 0 { Side::Invests } else { Side::Collects };
        session.announce(&announcement(side, amounts.iter().sum::<u64>() / 2));
        let bids: Vec<_> = rates(random).into_iter().zip(amounts).collect();
        for (code, bids) in codes().into_iter().zip(bids.chunks_exact(PLACES)) {
            session.receive(DAY, 103_000, &written(&draft(code, 100_000, bids)));
        }
        session.close(DAY, 110_001).allot();
    }
    session.bytes
}

#[cfg(test)]
mod tests {
    use super::*;

    /// How many lines of the log start with this letter, where the whole session was taken.
    fn lines(session: &[u8], letter: u8) -> u64 {
        let (log, end) = log_with_end(session);
        assert_eq!(end, session.len());
        log.split(|&byte| byte == b'\n').filter(|line| line.first() == Some(&letter)).count() as u64
    }

    #[test]
    fn every_reception_is_accepted() {
        let session = receptions();
        assert_eq!(lines(&session, b'C'), RECEPTIONS);
        assert_eq!(lines(&session, b'R'), 0);
    }

    #[test]
    fn every_tender_is_allotted() {
        let (rates, one) = (different_rates(), one_rate());
        for session in [&rates, &one] {
            assert_eq!(lines(session, b'C'), TENDERS * CODES);
            assert_eq!(lines(session, b'R'), 0);
        }
        assert_eq!(lines(&one, b'W'), TENDERS * BIDS as u64);
        let awards = lines(&rates, b'W');
        assert!(awards > TENDERS * BIDS as u64 / 3 && awards < TENDERS * BIDS as u64 * 2 / 3);
    }

    #[test]
    fn the_mixed_session_goes_to_its_end() {
        assert!(lines(&mixed(), b'W') > 1000);
    }
}
