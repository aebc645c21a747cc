//! Messages, and the numbers and texts that they are written from.

use crate::addresses;
use crate::interface::{AddressForm, Fields, NUMBERS};
use crate::messages::damage;
use crate::random::Random;
use independent::address::{Address, LONG, SHORT};
use independent::application::{Draft, PLACES};
use independent::compose::written;

/// The digits of each number.
pub const WIDTHS: [u32; NUMBERS] = {
    let mut widths = [8; NUMBERS];
    let heading = [5, 5, 11, 8, 6, 5];
    let mut index = 0;
    while index < NUMBERS {
        if index < 6 {
            widths[index] = heading[index];
        } else if index >= 6 + PLACES {
            widths[index] = 15;
        }
        index += 1;
    }
    widths
};

/// A message, and how it was damaged.
pub struct Case {
    pub damage: &'static str,
    pub message: Vec<u8>,
}

/// The message with this seed.
pub fn case(seed: u64) -> Case {
    let random = &mut Random::new(seed);
    let mut message = Parts::sound(random).message();
    let (damage, change) = damage::pick(random);
    change(random, &mut message);
    if random.one_in(8) {
        damage::pick(random).1(random, &mut message);
    }
    Case { damage, message }
}

/// The form of an address, with a length that it may not have and a text of any length.
pub struct FormParts {
    pub length: u64,
    pub branch: u64,
    pub text: Vec<u8>,
}

impl FormParts {
    /// The short form, often with a number and a text that it does not look at.
    pub fn short(random: &mut Random) -> FormParts {
        let unseen = random.index(4);
        let branch = random.pick(&[0, 99_999, 100_000, u64::MAX]);
        FormParts { length: SHORT as u64, branch, text: any_bytes(random, unseen) }
    }

    /// The long form.
    pub fn long(random: &mut Random) -> FormParts {
        let text = addresses::text(random).to_vec();
        FormParts { length: LONG as u64, branch: number(random, 5), text }
    }

    /// Either form, about a third of them long.
    fn either(random: &mut Random) -> FormParts {
        if random.one_in(3) {
            FormParts::long(random)
        } else {
            FormParts::short(random)
        }
    }

    fn form(&self) -> AddressForm<'_> {
        AddressForm { length: self.length, branch: self.branch, text: &self.text }
    }

    /// The address with this code.
    fn address(&self, code: u64) -> Address<'_> {
        if self.length == LONG as u64 {
            Address::long(code, self.branch, &self.text)
        } else {
            Address::short(code)
        }
    }
}

/// What a message is written from, with texts of any length.
pub struct Parts {
    pub numbers: [u64; NUMBERS],
    /// The forms of the sender and of the recipient.
    pub forms: [FormParts; 2],
    pub kind: Vec<u8>,
    pub identifier: Vec<u8>,
    pub name: Vec<u8>,
}

impl Parts {
    /// Parts that can be written, each address in either form.
    pub fn sound(random: &mut Random) -> Parts {
        let forms = [FormParts::either(random), FormParts::either(random)];
        Parts::of_forms(random, forms)
    }

    /// Parts that can be written, with addresses of these forms.
    pub fn of_forms(random: &mut Random, forms: [FormParts; 2]) -> Parts {
        let mut identifier = b"T/0000/0000".to_vec();
        for index in [2, 3, 4, 5, 7, 8, 9, 10] {
            identifier[index] = random.pick(b"0123456789");
        }
        Parts {
            numbers: WIDTHS.map(|width| number(random, width)),
            forms,
            kind: if random.one_in(2) { b"6G1".to_vec() } else { any_bytes(random, 3) },
            identifier,
            name: match random.below(4) {
                0 => vec![b' '; 15],
                1 => b"CONTACT NAME   ".to_vec(),
                _ => any_bytes(random, 15),
            },
        }
    }

    pub fn fields(&self) -> Fields<'_> {
        let Parts { numbers, forms: [sender, recipient], kind, identifier, name } = self;
        let forms = [sender.form(), recipient.form()];
        Fields { numbers: *numbers, forms, kind, identifier, name }
    }

    /// The message, written by the plain form of the independent implementation.
    pub fn message(&self) -> Vec<u8> {
        let [sender, recipient, cro, date, time, check_digit, bids @ ..] = self.numbers;
        written(&Draft {
            kind: &self.kind,
            sender: self.forms[0].address(sender),
            recipient: self.forms[1].address(recipient),
            cro,
            date,
            time,
            check_digit,
            identifier: &self.identifier,
            places: std::array::from_fn(|place| (bids[place], bids[PLACES + place])),
            name: &self.name,
        })
    }
}

/// A number that has at most so many digits, often one at a boundary.
fn number(random: &mut Random, width: u32) -> u64 {
    let bound = 10u64.pow(width);
    match random.below(10) {
        0 | 1 => 0,
        2 => bound - 1,
        3 => bound / 10,
        4 => bound / 10 - 1,
        5 => random.below(10),
        _ => random.below(bound),
    }
}

/// So many bytes of any value.
pub fn any_bytes(random: &mut Random, length: usize) -> Vec<u8> {
    (0..length).map(|_| random.word() as u8).collect()
}
