//! Damage to a 6G1.

use crate::damage::{change_length, double_field, fields_of, flip_bit, put_near, swap_fields};
use crate::messages::generate::any_bytes;
use crate::random::Random;
use independent::address::{LONG, SHORT};
use independent::envelope::HEADER;
use std::ops::Range;

/// The fields by their numbers.
const FIELDS: usize = 10;
const ADDRESSES: [usize; 2] = [1, 2];
const DIGITS: [usize; 6] = [1, 2, 3, 4, 5, 6];
const IDENTIFIER: usize = 7;
const BIDS: usize = 8;

/// A change to a message.
pub type Change = fn(&mut Random, &mut Vec<u8>);

/// Every kind of damage, with its name.
pub const KINDS: [(&str, Change); 20] = [
    ("sound", |_, _| ()),
    ("bits flipped", flip_bits),
    ("digit fields spoiled", |random, message| spoil_digits(random, message)),
    ("places spoiled", |random, message| spoil_places(random, message)),
    ("slash spoiled", |random, message| spoil_slash(random, message)),
    ("identifier spoiled", |random, message| put_within(random, message, IDENTIFIER)),
    ("address spoiled", |random, message| spoil_address(random, message)),
    ("address's length told otherwise", |random, message| tell_otherwise(random, message)),
    ("addresses' lengths exchanged", |_, message| exchange_lengths(message)),
    ("head spoiled", |random, message| spoil_head(random, message)),
    ("cut", cut),
    ("fields swapped", |random, message| if_any(message, |m| swap_fields(random, m))),
    ("length changed", |random, message| if_any(message, |m| change_length(random, m))),
    ("field doubled", |random, message| if_any(message, |m| double_field(random, m))),
    ("field dropped", drop_field),
    ("bytes added", add_bytes),
    ("byte moved", move_byte),
    ("doubled", |_, message| message.extend_from_within(..)),
    ("empty", |_, message| message.clear()),
    ("any bytes", put_any_bytes),
];

/// A kind of damage; a third of the messages stay sound.
pub fn pick(random: &mut Random) -> (&'static str, Change) {
    if random.one_in(3) {
        return KINDS[0];
    }
    random.pick(&KINDS)
}

fn if_any(message: &mut Vec<u8>, change: impl FnOnce(&mut Vec<u8>)) {
    if !message.is_empty() {
        change(message);
    }
}

/// Where the contents of a field are, as far as the heads before it tell.
fn contents(message: &[u8], field: usize) -> Option<Range<usize>> {
    let fields = fields_of(message);
    let start = fields.iter().take(field).map(|field| field.len()).sum::<usize>();
    let length = fields.get(field)?.len();
    (length > HEADER).then_some(start + HEADER..start + length)
}

/// Puts a near byte into this field, where the message still has it.
fn put_within(random: &mut Random, message: &mut [u8], field: usize) {
    if let Some(range) = contents(message, field) {
        put_near(random, &mut message[range]);
    }
}

/// Puts a near byte after the code of an address, where it is long.
fn spoil_address(random: &mut Random, message: &mut [u8]) {
    let field = random.pick(&ADDRESSES);
    let Some(range) = contents(message, field) else { return };
    let after_code = range.start + SHORT..range.end;
    put_near(random, &mut message[if after_code.is_empty() { range } else { after_code }]);
}

/// Has the head of an address tell the other of its two lengths.
fn tell_otherwise(random: &mut Random, message: &mut [u8]) {
    let field = random.pick(&ADDRESSES);
    if let Some(range) = contents(message, field) {
        let told = &mut message[range.start - 1];
        *told = if *told == SHORT as u8 { LONG as u8 } else { SHORT as u8 };
    }
}

/// Has the head of each address tell the length of the other.
fn exchange_lengths(message: &mut [u8]) {
    let places = ADDRESSES.map(|field| contents(message, field).map(|range| range.start - 1));
    if let [Some(sender), Some(recipient)] = places {
        message.swap(sender, recipient);
    }
}

fn flip_bits(random: &mut Random, message: &mut Vec<u8>) {
    for _ in 0..random.pick(&[1, 1, 2, 5]) {
        if_any(message, |message| flip_bit(random, message));
    }
}

fn spoil_digits(random: &mut Random, message: &mut [u8]) {
    for _ in 0..random.pick(&[1, 1, 2, 6]) {
        let field = random.pick(&DIGITS);
        put_within(random, message, field);
    }
}

fn spoil_places(random: &mut Random, message: &mut [u8]) {
    for _ in 0..random.pick(&[1, 1, 2, 10]) {
        put_within(random, message, BIDS);
    }
}

fn spoil_slash(random: &mut Random, message: &mut [u8]) {
    let slash = 24 * random.index(10) + 8;
    if let Some(byte) = contents(message, BIDS).and_then(|bids| message[bids].get_mut(slash)) {
        put_near(random, std::slice::from_mut(byte));
    }
}

fn spoil_head(random: &mut Random, message: &mut [u8]) {
    let Some(range) = contents(message, random.index(FIELDS)) else { return };
    let byte = &mut message[range.start - HEADER + random.index(HEADER)];
    *byte = random.pick(&[0, 1, byte.wrapping_add(1), byte.wrapping_sub(1), 0xff]);
}

/// Cuts the message before, within or after a head, or within or after a field's contents.
fn cut(random: &mut Random, message: &mut Vec<u8>) {
    let Some(range) = contents(message, random.index(FIELDS)) else { return };
    let start = range.start - HEADER;
    let within = range.start + random.index(range.len());
    let places = [start, start + 1, start + 2, range.start, within, range.end - 1];
    message.truncate(random.pick(&places));
}

fn drop_field(random: &mut Random, message: &mut Vec<u8>) {
    let mut fields = fields_of(message);
    if !fields.is_empty() {
        fields.remove(random.index(fields.len()));
        *message = fields.concat();
    }
}

/// Adds bytes before or after the message.
fn add_bytes(random: &mut Random, message: &mut Vec<u8>) {
    let length = random.pick(&[1, 1, 2, 3, 4, 17]);
    let added = match random.below(4) {
        0 => vec![0; length],
        1 => vec![0xff; length],
        2 => b"\x7f\0\x01x".to_vec(),
        _ => any_bytes(random, length),
    };
    *message = if random.one_in(4) {
        [added, message.split_off(0)].concat()
    } else {
        [message.split_off(0), added].concat()
    };
}

/// Takes a byte from one place to another, so that the message keeps its length.
fn move_byte(random: &mut Random, message: &mut Vec<u8>) {
    if_any(message, |message| {
        let byte = message.remove(random.index(message.len()));
        message.insert(random.index(message.len() + 1), byte);
    });
}

fn put_any_bytes(random: &mut Random, message: &mut Vec<u8>) {
    let length = random.pick(&[1, 3, 225, 316, 317, 338, 339, 340, 348, 357, 358]);
    *message = any_bytes(random, length);
}
