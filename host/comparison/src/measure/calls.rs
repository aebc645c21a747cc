//! Measures of the calls of the C interface.

use crate::interface::{Fields, Independent, Interface};
use crate::library::Library;
use crate::measure::table::print_nanoseconds;
use crate::measure::timing::alternate;
use crate::messages::generate::{FormParts, Parts};
use crate::random::Random;
use independent::address::TEXT_BYTES;
use independent::application::{LONGEST, PLACES, SHORTEST};
use independent::interface::NUMBERS;
use std::convert::Infallible;
use std::hint::black_box;

/// How many different messages are read and written in turn.
const MESSAGES: u64 = 64;
/// How often each side is run; a run takes a millisecond or a few.
const RUNS: usize = 200;
const DIGIT_FIELDS: [u32; 6] = [1, 2, 3, 4, 5, 6];

/// What `optes_application_read` of include/optes.h fills.
#[derive(Default, PartialEq)]
struct Application {
    numbers: [u64; 6],
    has_number: [u32; 6],
    branches: [Branch; 2],
    places: [Place; PLACES],
    kind: [u8; 3],
    identifier: [u8; 11],
    name: [u8; 15],
    unread: u32,
}

/// What a long address has after its code.
#[derive(Default, PartialEq)]
struct Branch {
    is_long: u32,
    number: u64,
    text: [u8; TEXT_BYTES],
}

#[derive(Default, PartialEq)]
struct Place {
    rate: u64,
    amount: u64,
    well_formed: u32,
}

impl Application {
    /// Reads a message as `optes_application_read` does, by one call.
    fn read<I: Interface>(&mut self, message: &[u8]) -> u32 {
        let mut numbers = [0; NUMBERS];
        let refusal = I::numbers(message, &mut numbers);
        if refusal != 0 {
            return refusal;
        }
        for (field, pair) in numbers[..12].chunks_exact(2).enumerate() {
            self.numbers[field] = pair[0];
            self.has_number[field] = pair[1] as u32;
        }
        for (place, triple) in self.places.iter_mut().zip(numbers[12..42].chunks_exact(3)) {
            *place = Place { rate: triple[0], amount: triple[1], well_formed: triple[2] as u32 };
        }
        let [kind, identifier, name] = [42, 43, 44].map(|index: usize| numbers[index] as usize);
        self.kind.copy_from_slice(&message[kind..][..3]);
        self.identifier.copy_from_slice(&message[identifier..][..11]);
        self.name.copy_from_slice(&message[name..][..15]);
        self.count_unread();
        for (branch, triple) in self.branches.iter_mut().zip(numbers[45..].chunks_exact(3)) {
            branch.read(message, triple);
        }
        0
    }

    /// Reads a message by single calls, one for each thing that is asked of it.
    fn read_singly<I: Interface>(&mut self, message: &[u8]) -> u32 {
        let refusal = I::read(message);
        if refusal != 0 {
            return refusal;
        }
        for (number, field) in self.numbers.iter_mut().zip(DIGIT_FIELDS) {
            *number = I::number(message, field);
        }
        for (has, field) in self.has_number.iter_mut().zip(DIGIT_FIELDS) {
            *has = I::has_number(message, field);
        }
        for (place, index) in self.places.iter_mut().zip(0..) {
            place.rate = u64::from(I::rate(message, index));
            place.amount = I::amount(message, index);
            place.well_formed = I::has_place(message, index);
        }
        self.kind.copy_from_slice(&message[I::start(message, 0)..][..3]);
        self.identifier.copy_from_slice(&message[I::start(message, 7)..][..11]);
        self.name.copy_from_slice(&message[I::start(message, 9)..][..15]);
        self.count_unread();
        0
    }

    /// Counts the digit fields and places that have no number.
    fn count_unread(&mut self) {
        let places = self.places.iter().map(|place| place.well_formed);
        let found: u32 = self.has_number.iter().copied().chain(places).sum();
        self.unread = (DIGIT_FIELDS.len() + PLACES) as u32 - found;
    }
}

impl Branch {
    /// Takes the numbers of an address, and the text of one that is long.
    fn read(&mut self, message: &[u8], numbers: &[u64]) {
        self.is_long = numbers[0] as u32;
        self.number = numbers[1];
        if self.is_long == 1 {
            self.text.copy_from_slice(&message[numbers[2] as usize..][..TEXT_BYTES]);
        }
    }
}

fn read_all<I: Interface>(messages: &[Vec<u8>]) {
    for message in messages {
        let mut application = Application::default();
        black_box(application.read::<I>(black_box(message)));
        black_box(&application);
    }
}

fn read_all_singly<I: Interface>(messages: &[Vec<u8>]) {
    for message in messages {
        let mut application = Application::default();
        black_box(application.read_singly::<I>(black_box(message)));
        black_box(&application);
    }
}

fn numbers_at_once<I: Interface>(messages: &[Vec<u8>]) {
    let mut numbers = [0; NUMBERS];
    for message in messages {
        black_box(I::numbers(black_box(message), &mut numbers));
        black_box(&numbers);
    }
}

fn read_alone<I: Interface>(messages: &[Vec<u8>]) {
    for message in messages {
        black_box(I::read(black_box(message)));
    }
}

fn numbers_alone<I: Interface>(messages: &[Vec<u8>]) {
    for message in messages {
        for field in DIGIT_FIELDS {
            black_box(I::number(black_box(message), black_box(field)));
        }
    }
}

fn write_all<I: Interface>(inputs: &[Fields]) {
    let mut space = [0; SHORTEST];
    for fields in inputs {
        black_box(I::write(black_box(fields), &mut space));
        black_box(&space);
    }
}

fn write_all_long<I: Interface>(inputs: &[Fields]) {
    let mut space = [0; LONGEST];
    for fields in inputs {
        black_box(I::write_addresses(black_box(fields), &mut space));
        black_box(&space);
    }
}

/// Measures two functions over the same input, each run so many turns, and prints the row.
fn measure<T: ?Sized>(
    what: &str,
    input: &T,
    (turns, calls): (u64, u64),
    library: fn(&T),
    independent: fn(&T),
) {
    let run = |function: fn(&T)| {
        (0..turns).for_each(|_| function(black_box(input)));
        Ok::<(), Infallible>(())
    };
    let measured = alternate(RUNS, || run(library), || run(independent));
    let least = measured.unwrap_or_else(|never| match never {});
    print_nanoseconds(what, least, turns * calls);
}

/// Whether both sides read and write the input alike.
fn agree(messages: &[Vec<u8>], inputs: &[Fields]) -> bool {
    messages.iter().zip(inputs).all(|(message, fields)| {
        let (mut written, mut expected) = ([0; SHORTEST], [1; SHORTEST]);
        read_alike(message)
            && read_singly_alike::<Library>(message)
            && read_singly_alike::<Independent>(message)
            && Library::write(fields, &mut written) == 0
            && Independent::write(fields, &mut expected) == 0
            && written == expected
            && written[..] == message[..]
    })
}

/// Whether both sides read and write messages with two long addresses alike.
fn agree_long(messages: &[Vec<u8>], inputs: &[Fields]) -> bool {
    messages.iter().zip(inputs).all(|(message, fields)| {
        let (mut written, mut expected) = ([0; LONGEST], [1; LONGEST]);
        read_alike(message)
            && Library::write_addresses(fields, &mut written) == 0
            && Independent::write_addresses(fields, &mut expected) == 0
            && written == expected
            && written[..] == message[..]
    })
}

fn read_alike(message: &[u8]) -> bool {
    let (mut library, mut independent) = (Application::default(), Application::default());
    library.read::<Library>(message) == 0
        && independent.read::<Independent>(message) == 0
        && library == independent
}

/// Whether single calls read what one call does.
fn read_singly_alike<I: Interface>(message: &[u8]) -> bool {
    let (mut at_once, mut singly) = (Application::default(), Application::default());
    at_once.read::<I>(message) == 0 && singly.read_singly::<I>(message) == 0 && at_once == singly
}

/// Parts of messages that are all of one form.
fn parts(random: &mut Random, form: fn(&mut Random) -> FormParts) -> Vec<Parts> {
    let mut part = || {
        let forms = [form(random), form(random)];
        Parts::of_forms(random, forms)
    };
    (0..MESSAGES).map(|_| part()).collect()
}

/// Measures reading and writing, or tells that the two sides do not agree.
pub fn measure_calls() -> Result<(), String> {
    measure_short()?;
    measure_long()
}

/// Measures messages of 339 bytes.
fn measure_short() -> Result<(), String> {
    let parts = parts(&mut Random::new(6), FormParts::short);
    let inputs: Vec<Fields> = parts.iter().map(Parts::fields).collect();
    let messages: Vec<Vec<u8>> = parts.iter().map(Parts::message).collect();
    if !agree(&messages, &inputs) {
        return Err("the library and the independent calls differ".to_string());
    }
    let m = &messages[..];
    let all = "a 6G1 read as optes_application_read does";
    measure(all, m, (300, MESSAGES), read_all::<Library>, read_all::<Independent>);
    let at_once = "optes_6g1_numbers alone";
    let counts = (300, MESSAGES);
    measure(at_once, m, counts, numbers_at_once::<Library>, numbers_at_once::<Independent>);
    let singly = "a 6G1 read by 46 single calls";
    let counts = (30, MESSAGES);
    measure(singly, m, counts, read_all_singly::<Library>, read_all_singly::<Independent>);
    let alone = "optes_6g1_read alone";
    measure(alone, m, (1000, MESSAGES), read_alone::<Library>, read_alone::<Independent>);
    let number = "optes_6g1_number alone";
    let counts = (150, 6 * MESSAGES);
    measure(number, m, counts, numbers_alone::<Library>, numbers_alone::<Independent>);
    let write = "a 6G1 written by optes_6g1_write";
    measure(write, &inputs[..], (100, MESSAGES), write_all::<Library>, write_all::<Independent>);
    Ok(())
}

/// Measures messages of 357 bytes, whose addresses are both long.
fn measure_long() -> Result<(), String> {
    let parts = parts(&mut Random::new(6), FormParts::long);
    let inputs: Vec<Fields> = parts.iter().map(Parts::fields).collect();
    let messages: Vec<Vec<u8>> = parts.iter().map(Parts::message).collect();
    if !agree_long(&messages, &inputs) {
        return Err("the library and the independent calls differ on long addresses".to_string());
    }
    let m = &messages[..];
    let all = "a 6G1 of 357 bytes read as optes_application_read does";
    measure(all, m, (300, MESSAGES), read_all::<Library>, read_all::<Independent>);
    let write = "a 6G1 of 357 bytes by optes_6g1_write_addresses";
    let counts = (100, MESSAGES);
    measure(write, &inputs[..], counts, write_all_long::<Library>, write_all_long::<Independent>);
    Ok(())
}
