//! The calls that read.

use super::words;
use super::{head, start_in_tail, NUMBERS, OK, TAIL, TAIL_FIELDS, UNREADABLE};
use crate::address::{LONG, SHORT};
use crate::application::{Field, PLACES, PLACE_BYTES};
use crate::envelope::{self, HEADER};

/// Where the head of each field of the tail starts, and its three bytes with a zero after them.
const HEADS: [(usize, u32); TAIL_FIELDS.len()] = {
    let mut heads = [(0, 0); TAIL_FIELDS.len()];
    let mut index = 0;
    while index < heads.len() {
        let field = TAIL_FIELDS[index];
        heads[index] = (start_in_tail(field) - HEADER, word_of(head(field)));
        index += 1;
    }
    heads
};

const TYPE: u32 = word_of(head(Field::Type));
const TYPE_START: usize = HEADER;
const SENDER_START: usize = TYPE_START + 3 + HEADER;

const fn word_of([tag, high, low]: [u8; HEADER]) -> u32 {
    u32::from_le_bytes([tag, high, low, 0])
}

/// The three bytes of a head as a word; no field is empty, so that a byte stands after each head.
#[inline]
fn head_at(bytes: &[u8], start: usize) -> u32 {
    let four = bytes[start..start + 4].try_into().expect("the range has four bytes");
    u32::from_le_bytes(four) & 0x00ff_ffff
}

/// A message that is readable, with where its recipient and its tail start.
#[derive(Clone, Copy)]
struct Readable<'a> {
    message: &'a [u8],
    recipient_start: usize,
    tail_start: usize,
    tail: &'a [u8; TAIL],
}

/// The length of the address whose head, with this tag, starts here, or none where it has no such
/// head.
#[inline]
fn address_length(message: &[u8], start: usize, tag: u8) -> Option<usize> {
    let told = head_at(message, start);
    if told == word_of(envelope::header(tag, SHORT)) {
        return Some(SHORT);
    }
    (told == word_of(envelope::header(tag, LONG))).then_some(LONG)
}

/// The message where it is readable as a 6G1.
#[inline]
fn readable(message: &[u8]) -> Option<Readable<'_>> {
    let (front, tail) = message.split_last_chunk::<TAIL>()?;
    // The shortest front has both heads of the addresses, whatever the first one says.
    if front.len() < SENDER_START + SHORT + HEADER + SHORT || head_at(message, 0) != TYPE {
        return None;
    }
    let sender = address_length(message, SENDER_START - HEADER, 0x04)?;
    let recipient_start = SENDER_START + sender + HEADER;
    let recipient = address_length(message, recipient_start - HEADER, 0x05)?;
    let differences = HEADS
        .iter()
        .fold(0, |differences, &(start, head)| differences | (head_at(tail, start) ^ head));
    let tail_start = front.len();
    let is_readable = differences == 0 && tail_start == recipient_start + recipient;
    is_readable.then_some(Readable { message, recipient_start, tail_start, tail })
}

/// An address that was read.
#[derive(Clone, Copy)]
struct Address {
    code: u64,
    branch: Option<Branch>,
}

/// What a long address has after its code: a number, and where its two characters start.
#[derive(Clone, Copy)]
struct Branch {
    number: u64,
    text_start: usize,
}

impl Readable<'_> {
    #[inline]
    fn sender(&self) -> Option<Address> {
        let length = self.recipient_start - HEADER - SENDER_START;
        self.address(SENDER_START, length)
    }

    #[inline]
    fn recipient(&self) -> Option<Address> {
        self.address(self.recipient_start, self.tail_start - self.recipient_start)
    }

    /// The address at this start, or none where a digit or slash of it is out of place.
    #[inline]
    fn address(&self, start: usize, length: usize) -> Option<Address> {
        let code = one_word(words::first::<5>(eight(self.message, start)))?;
        if length == SHORT {
            return Some(Address { code, branch: None });
        }
        let slashes = [self.message[start + 5], self.message[start + 11]];
        let number = one_word(words::first::<5>(eight(self.message, start + 6)))?;
        let branch = Some(Branch { number, text_start: start + 12 });
        (slashes == *b"//").then_some(Address { code, branch })
    }

    /// Where the contents of a field start.
    #[inline]
    fn start(&self, field: Field) -> usize {
        match field {
            Field::Type => TYPE_START,
            Field::Sender => SENDER_START,
            Field::Recipient => self.recipient_start,
            _ => self.tail_start + start_in_tail(field),
        }
    }

    /// How many bytes a field holds.
    #[inline]
    fn length(&self, field: Field) -> usize {
        match field {
            Field::Sender => self.recipient_start - HEADER - SENDER_START,
            Field::Recipient => self.tail_start - self.recipient_start,
            _ => usize::from(head(field)[1]) << 8 | usize::from(head(field)[2]),
        }
    }
}

#[inline]
fn eight(message: &[u8], start: usize) -> &[u8; 8] {
    message[start..start + 8].try_into().expect("the range has eight bytes")
}

#[inline]
fn one_word(word: u64) -> Option<u64> {
    words::are_digits(word).then(|| words::number(word))
}

#[inline]
fn two_words(high: u64, low: u64, scale: u64) -> Option<u64> {
    let are_digits = words::are_digits(high) & words::are_digits(low);
    are_digits.then(|| words::number(high) * scale + words::number(low))
}

/// The number of a digit field of a readable message, or none.
#[inline]
fn number_of(message: &Readable, field: u32) -> Option<u64> {
    let at = |field, more| eight(message.tail, start_in_tail(field) + more);
    match field {
        1 => message.sender().map(|address| address.code),
        2 => message.recipient().map(|address| address.code),
        3 => {
            let high = words::first::<8>(at(Field::Cro, 0));
            let low = words::first::<3>(at(Field::Cro, 8));
            two_words(high, low, 1000)
        }
        4 => one_word(words::first::<8>(at(Field::ReferenceDate, 0))),
        5 => one_word(words::first::<6>(at(Field::ReferenceTime, 0))),
        6 => one_word(words::first::<5>(at(Field::CheckDigit, 0))),
        _ => None,
    }
}

/// The rate and the amount of a place of a readable message, or none.
#[inline]
fn place_of(message: &Readable, place: u32) -> Option<(u32, u64)> {
    if place >= PLACES as u32 {
        return None;
    }
    let start = start_in_tail(Field::Bids) + PLACE_BYTES * place as usize;
    let place: &[u8; PLACE_BYTES] = message.tail[start..start + PLACE_BYTES].try_into().ok()?;
    let rate = words::first::<8>(eight(place, 0));
    let high = words::first::<7>(eight(place, 9));
    let low = words::first::<8>(eight(place, 16));
    if place[8] != b'/' || !words::are_digits(rate) {
        return None;
    }
    let amount = two_words(high, low, 100_000_000)?;
    Some((words::number(rate) as u32, amount))
}

/// 0 with as many numbers of the message as the array has room for, else 12.
#[inline(never)]
pub fn numbers(message: &[u8], array: &mut [u64]) -> u32 {
    let Some(numbers) = array.first_chunk_mut::<NUMBERS>() else {
        return first_numbers(message, array);
    };
    let Some(message) = readable(message) else {
        return UNREADABLE;
    };
    put_digit_fields(numbers, &message);
    for (triple, index) in numbers[12..42].chunks_exact_mut(3).zip(0..) {
        let place = place_of(&message, index);
        let (rate, amount) = place.unwrap_or((0, 0));
        triple.copy_from_slice(&[u64::from(rate), amount, u64::from(place.is_some())]);
    }
    let texts = [Field::Type, Field::Identifier, Field::Name];
    numbers[42..45].copy_from_slice(&texts.map(|field| message.start(field) as u64));
    OK
}

/// Puts the numbers of the digit fields and of the branches.
#[inline]
fn put_digit_fields(numbers: &mut [u64; NUMBERS], message: &Readable) {
    let addresses = [message.sender(), message.recipient()];
    let fields: [_; 6] = std::array::from_fn(|index| match addresses.get(index) {
        Some(address) => address.map(|address| address.code),
        None => number_of(message, index as u32 + 1),
    });
    for (pair, number) in numbers[..12].chunks_exact_mut(2).zip(fields) {
        pair.copy_from_slice(&[number.unwrap_or(0), u64::from(number.is_some())]);
    }
    let branches = addresses.map(|address| branch_numbers(address.and_then(|read| read.branch)));
    numbers[45..48].copy_from_slice(&branches[0]);
    numbers[48..].copy_from_slice(&branches[1]);
}

#[inline]
fn branch_numbers(branch: Option<Branch>) -> [u64; 3] {
    branch.map_or([0; 3], |branch| [1, branch.number, branch.text_start as u64])
}

/// The same for an array that is too short for all numbers.
#[cold]
fn first_numbers(message: &[u8], array: &mut [u64]) -> u32 {
    let mut numbers = [0; NUMBERS];
    let answer = self::numbers(message, &mut numbers);
    if answer == OK {
        array.copy_from_slice(&numbers[..array.len()]);
    }
    answer
}

/// 0 where the message is readable as a 6G1, else 12.
#[inline(never)]
pub fn read(message: &[u8]) -> u32 {
    if readable(message).is_some() {
        OK
    } else {
        UNREADABLE
    }
}

/// The field of this number of a readable message, or none.
#[inline]
fn field_of(message: &[u8], field: u32) -> Option<(Readable<'_>, Field)> {
    let field = *Field::ALL.get(field as usize)?;
    readable(message).map(|message| (message, field))
}

/// 1 where the message is readable and has a field of this number, else 0.
#[inline(never)]
pub fn has_field(message: &[u8], field: u32) -> u32 {
    u32::from(field_of(message, field).is_some())
}

/// The index of the field's first byte, or 0 where there is no such field.
#[inline(never)]
pub fn start(message: &[u8], field: u32) -> usize {
    field_of(message, field).map_or(0, |(message, field)| message.start(field))
}

/// How many bytes the field holds, or 0 where there is no such field.
#[inline(never)]
pub fn length(message: &[u8], field: u32) -> usize {
    field_of(message, field).map_or(0, |(message, field)| message.length(field))
}

/// 1 where the field is a digit field and holds only digits, an address also its slashes in place,
/// else 0.
#[inline(never)]
pub fn has_number(message: &[u8], field: u32) -> u32 {
    u32::from(readable(message).is_some_and(|message| number_of(&message, field).is_some()))
}

/// The number of a digit field, that of an address its code, or 0 where it has none.
#[inline(never)]
pub fn number(message: &[u8], field: u32) -> u64 {
    readable(message).and_then(|message| number_of(&message, field)).unwrap_or(0)
}

/// 1 where the place of this number is well formed, else 0.
#[inline(never)]
pub fn has_place(message: &[u8], place: u32) -> u32 {
    u32::from(readable(message).is_some_and(|message| place_of(&message, place).is_some()))
}

/// The rate of a place, or 0 where the place is not well formed.
#[inline(never)]
pub fn rate(message: &[u8], place: u32) -> u32 {
    readable(message).and_then(|message| place_of(&message, place)).map_or(0, |(rate, _)| rate)
}

/// The amount of a place, or 0 where the place is not well formed.
#[inline(never)]
pub fn amount(message: &[u8], place: u32) -> u64 {
    readable(message).and_then(|message| place_of(&message, place)).map_or(0, |(_, amount)| amount)
}
