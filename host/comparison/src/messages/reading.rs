//! The comparison of the calls that read.

use crate::difference::{same, Difference};
use crate::interface::{AddressForm, Fields, Independent, Interface, NUMBERS};
use crate::library::Library;
use crate::messages::tally::{Outcome, Tally, DIGIT_FIELDS};
use crate::random::Random;
use independent::address::{LONG, TEXT_BYTES};
use independent::application::{is_identifier, PLACES};
use independent::interface::NUMBERS as NUMBERS_READ;

const TYPE: u32 = 0;
const SENDER: u32 = 1;
const RECIPIENT: u32 = 2;
const IDENTIFIER: u32 = 7;
const NAME: u32 = 9;

/// Fields and places that there are, the first that there are not, and some that would seem to be
/// there if a number were cut.
const ASKED: [u32; 16] =
    [0, 1, 2, 3, 4, 5, 6, 7, 8, 9, 10, 11, 0x103, 0x1_0003, 0x8000_0003, u32::MAX];

/// Into how many arrays the numbers of a message are read, and how long the longest can be.
const ARRAYS: usize = 6;
pub const LONGEST_ARRAY: usize = NUMBERS_READ + 5;

/// Compares every call that reads the message.
pub fn compare(random: &mut Random, message: &[u8], tally: &mut Tally) -> Result<(), Difference> {
    same(Library::read(message), Independent::read(message), || "read".to_string())?;
    for _ in 0..ARRAYS {
        compare_numbers(message, random.index(LONGEST_ARRAY + 1), tally)?;
    }
    ASKED.into_iter().try_for_each(|number| {
        same(
            field_answers::<Library>(message, number),
            field_answers::<Independent>(message, number),
            || format!("has_field, start, length, has_number, number of field {number}"),
        )?;
        same(
            place_answers::<Library>(message, number),
            place_answers::<Independent>(message, number),
            || format!("has_place, rate, amount of place {number}"),
        )
    })
}

/// Compares the reading of all numbers into an array of this length.
fn compare_numbers(message: &[u8], length: usize, tally: &mut Tally) -> Result<(), Difference> {
    let (library, expected) =
        (numbers::<Library>(message, length), numbers::<Independent>(message, length));
    if expected.0 == 0 {
        tally.add(Outcome::Array(length));
    }
    same(library, expected, || format!("numbers, into an array of {length}"))
}

/// The answer to reading all numbers, and the whole array after it with numbers on either side.
fn numbers<I: Interface>(message: &[u8], length: usize) -> (u32, Vec<u64>) {
    let mut around: Vec<u64> =
        (1..).map(|index| index * 0x0123_4567_89ab_cdef).take(length + 4).collect();
    (I::numbers(message, &mut around[2..length + 2]), around)
}

fn field_answers<I: Interface>(message: &[u8], field: u32) -> (u32, usize, usize, u32, u64) {
    (
        I::has_field(message, field),
        I::start(message, field),
        I::length(message, field),
        I::has_number(message, field),
        I::number(message, field),
    )
}

fn place_answers<I: Interface>(message: &[u8], place: u32) -> (u32, u32, u64) {
    (I::has_place(message, place), I::rate(message, place), I::amount(message, place))
}

/// The numbers and texts that reading gives, zeros where there are none.
pub fn fields<I: Interface>(message: &[u8]) -> Fields<'_> {
    let text = |field| {
        let start = I::start(message, field);
        &message[start..start + I::length(message, field)]
    };
    let numbers: [u64; NUMBERS] = std::array::from_fn(|index| match index {
        0..=5 => I::number(message, index as u32 + 1),
        6..=15 => u64::from(I::rate(message, index as u32 - 6)),
        _ => I::amount(message, index as u32 - 16),
    });
    let forms = [SENDER, RECIPIENT].map(|field| form::<I>(message, field, text(field)));
    Fields { numbers, forms, kind: text(TYPE), identifier: text(IDENTIFIER), name: text(NAME) }
}

/// The form of an address, with the text of a long one also where it was not read.
fn form<'a, I: Interface>(message: &[u8], field: u32, address: &'a [u8]) -> AddressForm<'a> {
    let mut numbers = [0; NUMBERS_READ];
    I::numbers(message, &mut numbers);
    let text = if address.len() == LONG { &address[LONG - TEXT_BYTES..] } else { b"" };
    let branch = numbers[if field == SENDER { 46 } else { 49 }];
    AddressForm { length: address.len() as u64, branch, text }
}

/// Whether the message is readable and its digit fields, places and identifier are well formed.
pub fn is_well_formed<I: Interface>(message: &[u8]) -> bool {
    I::read(message) == 0
        && DIGIT_FIELDS.into_iter().all(|field| I::has_number(message, field) == 1)
        && (0..PLACES as u32).all(|place| I::has_place(message, place) == 1)
        && is_identifier(fields::<I>(message).identifier)
}

/// Counts what reading the message shows.
pub fn count(message: &[u8], tally: &mut Tally) {
    if Independent::read(message) != 0 {
        return tally.add(Outcome::Unreadable);
    }
    tally.add(Outcome::Readable);
    count_forms(message, tally);
    for field in DIGIT_FIELDS {
        let has = Independent::has_number(message, field) == 1;
        tally.add(if has { Outcome::Number(field) } else { Outcome::NoNumber(field) });
    }
    for place in 0..PLACES as u32 {
        let has = Independent::has_place(message, place) == 1;
        tally.add(if has { Outcome::Place(place) } else { Outcome::NoPlace(place) });
    }
    if is_well_formed::<Independent>(message) {
        tally.add(Outcome::WellFormed);
    }
    if !is_identifier(fields::<Independent>(message).identifier) {
        tally.add(Outcome::MalformedIdentifier);
    }
}

/// Counts the forms of the addresses, and those of the long ones that are read and that are not.
fn count_forms(message: &[u8], tally: &mut Tally) {
    let lengths = [SENDER, RECIPIENT].map(|field| Independent::length(message, field));
    tally.add(Outcome::Lengths(lengths[0], lengths[1]));
    for field in [SENDER, RECIPIENT] {
        if Independent::length(message, field) == LONG {
            let has = Independent::has_number(message, field) == 1;
            tally.add(if has { Outcome::Branch(field) } else { Outcome::NoBranch(field) });
        }
    }
}
