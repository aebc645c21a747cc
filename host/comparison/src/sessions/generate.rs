//! Sessions that aim at the boundaries of document 01's rules.

use crate::addresses::{address, text};
use crate::damage::{damage, push_odd_step, put_near};
use crate::random::Random;
use crate::sessions::days::{day_after, day_before, seconds_away};
use crate::sessions::plan::{plan, Plan, Planned};
use crate::sessions::spoil::{
    disorder, lengthen, spoil, spoil_addresses, spoil_parts, spoil_places, spoil_texts, RARE_DATES,
};
use independent::application::Draft;
use independent::compose::{draft, written, Announcement, Session};

/// Contact names: any bytes are one.
const NAMES: [&[u8]; 4] =
    [b"CONTACT NAME   ", b"               ", b"000000000000000", b"\0\n/\xff           "];

/// The session with this seed.
pub fn session(seed: u64) -> Vec<u8> {
    let random = &mut Random::new(seed);
    let mut session = Session::new();
    if random.one_in(10) {
        push_event(random, &mut session, &Announcement::worked());
    }
    if random.one_in(40) {
        push_odd_step(random, &mut session.bytes);
    }
    for _ in 0..=random.below(4) {
        push_tender(random, &mut session);
    }
    let mut bytes = session.bytes;
    if random.one_in(8) {
        damage(random, &mut bytes);
    }
    bytes
}

fn push_tender(random: &mut Random, session: &mut Session) {
    let plan = plan(random);
    if !random.one_in(12) {
        push_codes(random, session, &plan.codes);
    }
    push_announcement(random, session, &plan.announcement);
    let between = 20 + 4 * plan.applications.len() as u64;
    for application in &plan.applications {
        push_reception(random, session, &plan, application);
        if random.one_in(between) {
            push_event(random, session, &plan.announcement);
        }
    }
    push_end(random, session, &plan.announcement);
}

/// Announces the tender, sometimes after or instead of something that is refused.
fn push_announcement(random: &mut Random, session: &mut Session, announcement: &Announcement) {
    let message = announced(random, announcement);
    session.field(0xa1, &message);
    if message != announcement.write() && !random.one_in(4) {
        session.announce(announcement);
    }
}

/// An announcement's bytes, sometimes of one that is refused.
pub fn announced(random: &mut Random, announcement: &Announcement) -> Vec<u8> {
    let mut refused = *announcement;
    let mut message = announcement.write();
    match random.below(16) {
        0 | 1 => damage(random, &mut message),
        2 => put_near(random, &mut message),
        3 | 4 => {
            for _ in 0..random.pick(&[1, 1, 2, 3]) {
                disorder(random, &mut refused);
            }
            message = refused.write();
            spoil_parts(random, &mut message);
        }
        5 => lengthen(random, &mut message),
        _ => (),
    }
    message
}

fn push_codes(random: &mut Random, session: &mut Session, codes: &[u64]) {
    let mut codes = codes.to_vec();
    match random.below(60) {
        0 => codes.reverse(),
        1 => codes.push(codes[codes.len() - 1]),
        2 => codes.clear(),
        3 => codes = (0..65).collect(),
        _ => (),
    }
    session.admit(&codes);
}

/// Closes, mostly a second after the cut-off, and allots, sometimes with something between.
fn push_end(random: &mut Random, session: &mut Session, announcement: &Announcement) {
    let execution = announcement.execution;
    if random.one_in(6) {
        session.close(execution, announcement.cut_off);
    }
    if announcement.cut_off == 235_959 || random.one_in(4) {
        session.close(day_after(execution), random.pick(&[0, announcement.cut_off]));
    } else {
        session.close(execution, seconds_away(announcement.cut_off, 1));
    }
    if random.one_in(8) {
        push_event(random, session, announcement);
    }
    session.allot();
    if random.one_in(8) {
        push_event(random, session, announcement);
    }
}

/// A step that a tender may refuse, or that ends the log.
fn push_event(random: &mut Random, session: &mut Session, announcement: &Announcement) {
    let (date, time) = clock(random, announcement);
    match random.below(12) {
        0..=2 => drop(session.close(date, time)),
        3 => drop(session.revoke()),
        4..=6 => drop(session.allot()),
        7 => drop(session.receive(date, time, b"")),
        8 => drop(session.field(0xa1, b"")),
        9 => drop(session.admit(&[1, 2])),
        10 => drop(session.field(0xa3, b"1203201211 001")),
        _ => push_odd_step(random, &mut session.bytes),
    }
}

/// A clock near the cut-off, rarely one that does not exist.
pub fn clock(random: &mut Random, announcement: &Announcement) -> (u64, u64) {
    let (day, cut_off) = (announcement.execution, announcement.cut_off);
    match random.below(40) {
        0..=2 => (day, seconds_away(cut_off, 1)),
        3..=5 => (day, seconds_away(cut_off, -1)),
        6..=12 => (day, cut_off),
        13 => (day_after(day), random.pick(&[0, cut_off])),
        14 => (random.pick(&RARE_DATES), cut_off),
        15 => (day, random.pick(&[240_000, 105_960, 106_000, 999_999])),
        16 => (0, 0),
        17..=20 => (day, random.pick(&[0, 0, 7, 3_000, 95_959])),
        _ => (day_before(day), random.pick(&[cut_off, 235_959, 0])),
    }
}

fn push_reception(random: &mut Random, session: &mut Session, plan: &Plan, planned: &Planned) {
    let (date, time) = clock(random, &plan.announcement);
    let message = application(random, &plan.announcement, planned);
    session.receive(date, time, &message);
    if random.one_in(60) {
        let clock = session.bytes.len() - message.len() - 14;
        put_near(random, &mut session.bytes[clock..clock + 14]);
    }
}

/// An application's bytes, sometimes with errors or damaged.
pub fn application(random: &mut Random, announcement: &Announcement, planned: &Planned) -> Vec<u8> {
    let texts = [text(random), text(random)];
    let worked = draft(planned.code, planned.time, &[]);
    let mut application = Draft {
        sender: address(random, planned.code, &texts[0]),
        recipient: address(random, worked.recipient.code, &texts[1]),
        date: announcement.execution,
        identifier: &announcement.identifier,
        places: planned.places,
        name: random.pick(&NAMES),
        ..worked
    };
    for _ in 0..random.pick(&[0, 0, 0, 0, 0, 0, 0, 0, 0, 1, 1, 2, 6]) {
        spoil(random, &mut application);
    }
    let mut message = written(&application);
    match random.below(40) {
        0 => damage(random, &mut message),
        1 => put_near(random, &mut message),
        2 => spoil_texts(random, &mut message),
        3 => spoil_places(random, &mut message),
        4..=6 => spoil_addresses(random, &mut message),
        _ => (),
    }
    message
}
