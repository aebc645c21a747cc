//! Errors that announcements and applications are given.

use crate::addresses;
use crate::damage::put_near;
use crate::random::Random;
use crate::sessions::days::{day_after, day_before};
use crate::sessions::plan::MOST_AMOUNT;
use independent::address::{Address, LONG};
use independent::application::{Application, Draft, Field, PLACES};
use independent::compose::Announcement;
use independent::envelope::HEADER;

/// Days that are not in the calendar, and leap days that are.
pub const RARE_DATES: [u64; 9] = [
    29_022_011, 29_021_900, 29_022_100, 29_022_000, 29_022_400, 31_041_999, 1_131_999, 31_121_899,
    120,
];

/// Sets one part of the announcement beyond or at a boundary of conditions 3 to 6.
pub fn disorder(random: &mut Random, announcement: &mut Announcement) {
    match random.below(10) {
        0 => announcement.most_bids = random.pick(&[0, 11, 99]),
        1 => announcement.offered = 0,
        2 => announcement.minimum = 0,
        3 => announcement.increment = 0,
        4 => announcement.maximum = announcement.minimum.saturating_sub(1),
        5 => announcement.reference = day_after(announcement.execution),
        6 => announcement.spot = day_before(announcement.execution),
        7 => announcement.forward = announcement.spot,
        8 => announcement.execution = random.pick(&RARE_DATES),
        _ => announcement.cut_off = random.pick(&[240_000, 105_960]),
    }
}

/// Puts near bytes into several parts of an announcement, mostly none.
pub fn spoil_parts(random: &mut Random, message: &mut [u8]) {
    for (start, end) in [(3, 6), (9, 14), (17, 22), (59, 70), (73, 91), (73, 91), (94, 194)] {
        if random.one_in(10) {
            put_near(random, &mut message[start..end]);
        }
    }
}

/// Gives the application one of the errors that numbers can have, or moves its bids.
pub fn spoil(random: &mut Random, application: &mut Draft) {
    let place = random.index(PLACES);
    match random.below(12) {
        0 => application.kind = b"6G2",
        1 => {
            let code = &mut application.sender.code;
            *code = random.pick(&[0, 99_999, *code ^ 1]).min(99_999);
        }
        2 => application.recipient.code = 1001,
        3 => application.date = day_after(application.date),
        4 => application.date = random.pick(&RARE_DATES),
        5 => application.time = random.pick(&[240_000, 105_960, 106_000]),
        6 => application.identifier = random.pick(&[b"T/2012/0002", b"T/2013/0001"]),
        7 => application.places[place] = (0, 0),
        8 => application.places[place].0 ^= random.pick(&[1, 8, 4]),
        9 => application.places[place].1 ^= 1,
        // A single bid comes to stand at the tenth place.
        10 => application.places.rotate_left(1),
        _ => application.places[place].1 = MOST_AMOUNT,
    }
}

/// The digit fields and the bids.
const SPOILED: [Field; 7] = [
    Field::Sender,
    Field::Recipient,
    Field::Cro,
    Field::ReferenceDate,
    Field::ReferenceTime,
    Field::CheckDigit,
    Field::Bids,
];

/// A field's bytes in an application that is readable.
fn contents(message: &mut [u8], field: Field) -> &mut [u8] {
    let range = Application::read(message).expect("the application is readable").range(field);
    &mut message[range]
}

/// Puts near bytes into several digit fields at once.
pub fn spoil_texts(random: &mut Random, message: &mut [u8]) {
    for field in SPOILED {
        if random.one_in(3) {
            put_near(random, contents(message, field));
        }
    }
}

/// Puts near bytes into places of an application, mostly into two of them.
pub fn spoil_places(random: &mut Random, message: &mut [u8]) {
    for _ in 0..random.pick(&[1, 2, 2, 10]) {
        let start = 24 * random.index(PLACES);
        put_near(random, &mut contents(message, Field::Bids)[start..start + 24]);
    }
}

/// Puts something out of place in the long addresses of an application, mostly in one of them.
pub fn spoil_addresses(random: &mut Random, message: &mut [u8]) {
    let both = [Field::Sender, Field::Recipient];
    let fields = random.pick(&[&both[..1], &both[..1], &both[1..], &both[..]]);
    fields.iter().for_each(|&field| addresses::spoil(random, contents(message, field)));
}

/// Gives an announcement a long sender, a long recipient or both, which only an application may have.
pub fn lengthen(random: &mut Random, message: &mut Vec<u8>) {
    // The recipient comes first, for its head moves when the sender is lengthened.
    let both = [(14, 90_001), (6, 1000)];
    for &(head, code) in random.pick(&[&both[..1], &both[1..], &both[..]]) {
        let text = addresses::text(random);
        let mut long = [0; LONG];
        Address::long(code, addresses::number(random), &text).fill(&mut long);
        message[head + 2] = LONG as u8;
        message.splice(head + HEADER..head + HEADER + 5, long);
    }
}
