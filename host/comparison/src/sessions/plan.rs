//! Tenders before they are announced, with applications that aim at the boundaries of the rules.

use crate::random::Random;
use crate::sessions::days::{day_after, day_before, seconds_away};
use independent::application::PLACES;
use independent::award::Side;
use independent::compose::Announcement;

pub const MOST_AMOUNT: u64 = 999_999_999_999_999;
const MOST_RATE: u64 = 99_999_999;
const SIDES: [Side; 2] = [Side::Collects, Side::Invests];
const DATES: [u64; 8] =
    [12_032_012, 29_022_012, 28_022_011, 31_121_999, 1_012_000, 2_011_900, 29_129_999, 28_022_100];
const IDENTIFIERS: [&[u8; 11]; 4] =
    [b"T/2012/0001", b"T/0000/9999", b"T/1999/0001", b"T/9999/0000"];
const EDGE_DATES: [u64; 3] = [1_011_900, 30_129_999, 31_129_999];
const CUT_OFFS: [u64; 7] = [110_000, 105_959, 0, 1, 235_959, 235_958, 120_000];

/// An application before it is written.
#[derive(Clone, Copy)]
pub struct Planned {
    pub code: u64,
    pub time: u64,
    pub places: [(u64, u64); PLACES],
}

/// A tender before it is announced.
pub struct Plan {
    pub codes: Vec<u64>,
    pub announcement: Announcement,
    pub applications: Vec<Planned>,
}

pub fn plan(random: &mut Random) -> Plan {
    let edge = random.one_in(20);
    let execution = if edge { random.pick(&EDGE_DATES) } else { random.pick(&DATES) };
    let spot = if random.one_in(2) { execution } else { day_after(execution) };
    let minimum = random.pick(&[1, 2, 10_000, 10_000, 10_000, 33_333_333_333_333, MOST_AMOUNT]);
    let mut announcement = Announcement {
        identifier: *random.pick(&IDENTIFIERS),
        side: random.pick(&SIDES),
        letter: random.pick(b"YN"),
        reference: if random.one_in(3) { day_before(execution) } else { execution },
        execution,
        spot,
        forward: day_after(spot),
        cut_off: random.pick(&CUT_OFFS),
        most_bids: random.pick(&[1, 2, 3, 9, 10, 10]),
        minimum,
        minimum_allocation: random.pick(&[0, 1, 20_000, MOST_AMOUNT]),
        increment: random.pick(&[1, 3, 7_000, 10_000, minimum, minimum, MOST_AMOUNT]),
        ..Announcement::worked()
    };
    let codes = codes(random);
    let applications = applications(random, &codes, &announcement);
    aim(random, &mut announcement, &applications);
    Plan { codes, announcement, applications }
}

fn codes(random: &mut Random) -> Vec<u64> {
    let count = random.pick(&[1, 2, 3, 3, 5, 8, 64]);
    let first = random.pick(&[0, 1, 90_001, 100_000 - count]);
    (first..first + count).collect()
}

fn applications(random: &mut Random, codes: &[u64], announcement: &Announcement) -> Vec<Planned> {
    let count = random.below(2 * codes.len() as u64 + 6);
    let first_rate = random.pick(&[0, 100_000, 120_000, MOST_RATE - 3_999]);
    let rates = random.pick(&[1, 1, 2, 4, 4]);
    let mut time = random.pick(&[0, 100_000, 105_958, 235_950]);
    let mut applications = Vec::new();
    for _ in 0..count {
        time = seconds_away(time, random.pick(&[-60, -1, 0, 1, 1, 2, 60]));
        let mut places = [(0, 0); PLACES];
        let filled = filled_places(random, announcement.most_bids);
        for place in &mut places[..filled] {
            *place = (first_rate + 1000 * random.below(rates), amount(random, announcement));
        }
        applications.push(Planned { code: random.pick(codes), time, places });
    }
    applications
}

/// How many places are filled: none cancels, and sometimes it is one too many.
fn filled_places(random: &mut Random, most: u64) -> usize {
    let filled = match random.below(16) {
        0 | 1 => 0,
        2 => most + 1,
        3..=8 => most,
        _ => 1 + random.below(most),
    };
    filled.min(PLACES as u64) as usize
}

/// An amount that mostly is the minimum and some increments.
fn amount(random: &mut Random, announcement: &Announcement) -> u64 {
    let (minimum, increment) = (announcement.minimum, announcement.increment);
    let steps = random.pick(&[0, 0, 1, 2, 3, 17]);
    let wanted = minimum + increment * steps;
    let sound = if wanted > MOST_AMOUNT { minimum } else { wanted };
    match random.below(150) {
        0 => minimum - 1,
        1 => (sound + 1).min(MOST_AMOUNT),
        2 => sound - 1,
        3 => MOST_AMOUNT,
        _ => sound,
    }
}

/// Sets the limit rate, the maximum and the amount offered near what the applications bid. An amount
/// offered that is a multiple of the minimum makes some of the shares whole.
fn aim(random: &mut Random, announcement: &mut Announcement, applications: &[Planned]) {
    let places = last_of_each(applications).into_iter().flat_map(|a| a.places);
    let bids: Vec<_> = places.filter(|&place| place != (0, 0)).collect();
    let Some(&(rate, _)) = bids.get(random.index(bids.len().max(1))) else { return };
    let side = announcement.side;
    let is_served = |other: u64| if side == Side::Collects { other <= rate } else { other >= rate };
    let total: u64 = bids.iter().filter(|bid| is_served(bid.0)).map(|bid| bid.1).sum();
    let minimum = announcement.minimum;
    let offered = match random.below(8) {
        0 | 1 => total,
        2 => total + 1,
        3 => total.saturating_sub(1),
        4 => 1,
        5 => 1 + random.below(total + 1),
        6 => minimum * (1 + random.below(total / minimum + 1)),
        _ => MOST_AMOUNT,
    };
    announcement.offered = offered.clamp(1, MOST_AMOUNT);
    let worst = if side == Side::Collects { MOST_RATE } else { 0 };
    let limits = [worst, worst, worst, rate, rate + 1, rate.saturating_sub(1), 0, rate + 1000];
    announcement.limit = random.pick(&limits).min(MOST_RATE);
    announcement.maximum = maximum(random, announcement.minimum, applications);
}

/// The last application of each code, by the order of the list.
pub fn last_of_each(applications: &[Planned]) -> Vec<Planned> {
    let is_last = |&index: &usize| {
        let code = applications[index].code;
        applications[index + 1..].iter().all(|later| later.code != code)
    };
    (0..applications.len()).filter(is_last).map(|index| applications[index]).collect()
}

/// A maximum that is mostly not told, else near the total of some application.
fn maximum(random: &mut Random, minimum: u64, applications: &[Planned]) -> u64 {
    let places = applications[random.index(applications.len())].places;
    let total: u64 = places.iter().map(|place| place.1).sum();
    let told = random.pick(&[0, 0, 0, MOST_AMOUNT, total, total + 1, total.saturating_sub(1)]);
    if told < minimum && !random.one_in(10) {
        return 0;
    }
    told.min(MOST_AMOUNT)
}
