//! Damage to messages and sessions.

use crate::random::Random;
use independent::envelope;

/// Bytes that stand next to digits, slashes and the ends of a byte's range.
const NEAR: &[u8] = b"0129/:. -+ATtLPYN\0\n\x7f\x80\xb0\xff";

/// Changes the bytes in one of the ways below; what is empty gets a byte.
pub fn damage(random: &mut Random, bytes: &mut Vec<u8>) {
    if bytes.is_empty() {
        bytes.push(random.pick(NEAR));
        return;
    }
    match random.below(9) {
        0 | 1 => flip_bit(random, bytes),
        2 | 3 => put_near(random, bytes),
        4 => bytes.truncate(random.index(bytes.len())),
        5 => bytes.push(random.pick(NEAR)),
        6 => swap_fields(random, bytes),
        7 => change_length(random, bytes),
        _ => double_field(random, bytes),
    }
}

/// Flips a bit somewhere.
pub fn flip_bit(random: &mut Random, bytes: &mut [u8]) {
    let index = random.index(bytes.len());
    bytes[index] ^= 1 << random.below(8);
}

/// Puts a near byte somewhere.
pub fn put_near(random: &mut Random, bytes: &mut [u8]) {
    let index = random.index(bytes.len());
    bytes[index] = random.pick(NEAR);
}

/// The fields of a message, each with its header, and then what is left of it.
pub fn fields_of(bytes: &[u8]) -> Vec<&[u8]> {
    let mut fields = Vec::new();
    let mut rest = bytes;
    while let Some((_, _, after)) = envelope::split_field(rest) {
        fields.push(&rest[..rest.len() - after.len()]);
        rest = after;
    }
    if !rest.is_empty() {
        fields.push(rest);
    }
    fields
}

/// Swaps two fields.
pub fn swap_fields(random: &mut Random, bytes: &mut Vec<u8>) {
    let mut fields = fields_of(bytes);
    let (one, other) = (random.index(fields.len()), random.index(fields.len()));
    fields.swap(one, other);
    *bytes = fields.concat();
}

/// Repeats a field.
pub fn double_field(random: &mut Random, bytes: &mut Vec<u8>) {
    let mut fields = fields_of(bytes);
    let index = random.index(fields.len());
    fields.insert(index, fields[index]);
    *bytes = fields.concat();
}

/// Changes a length by one, or the bytes of a field but not its length.
pub fn change_length(random: &mut Random, bytes: &mut Vec<u8>) {
    let mut fields: Vec<Vec<u8>> = fields_of(bytes).into_iter().map(<[u8]>::to_vec).collect();
    let index = random.index(fields.len());
    let field = &mut fields[index];
    match random.below(4) {
        0 if field.len() >= envelope::HEADER => field[2] = field[2].wrapping_add(1),
        1 if field.len() >= envelope::HEADER => field[2] = field[2].wrapping_sub(1),
        2 => field.push(b'0'),
        _ => drop(field.pop()),
    }
    *bytes = fields.concat();
}

/// Appends a step whose form ends the log, or is close to it.
pub fn push_odd_step(random: &mut Random, session: &mut Vec<u8>) {
    let tag = random.pick(&[0x00, 0x01, 0x98, 0x9f, 0xa0, 0xa1, 0xa2, 0xa3, 0xa4, 0xa5, 0xa6]);
    let length = match tag {
        0xa0 => random.pick(&[1, 4, 5, 6, 10, 14]),
        0xa1 => random.pick(&[0, 224, 225, 226]),
        0xa2 | 0xa3 => random.pick(&[0, 13, 14, 15, 353, 362, 371]),
        _ => random.pick(&[0, 1, 14]),
    };
    let contents = vec![random.pick(b"0129/x"); length];
    envelope::push_field(session, tag, &contents);
}
