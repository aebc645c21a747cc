//! The calls of include/optes.h, which the library and the independent implementation both have.

use independent::address::SHORT;
use independent::application::SHORTEST;
use independent::interface;

/// How many numbers a 6G1 is written from: six digit fields, ten rates and ten amounts.
pub const NUMBERS: usize = 26;

/// The form of an address: its length, and the second number and the text of the long form.
#[derive(Clone, Copy, Debug, PartialEq, Eq)]
pub struct AddressForm<'a> {
    pub length: u64,
    pub branch: u64,
    pub text: &'a [u8],
}

impl AddressForm<'_> {
    /// The form without what the short one does not look at.
    pub fn seen(self) -> Self {
        if self.length == SHORT as u64 {
            return AddressForm { length: self.length, branch: 0, text: b"" };
        }
        self
    }
}

/// What a 6G1 is written from.
#[derive(Clone, Copy, Debug, PartialEq, Eq)]
pub struct Fields<'a> {
    pub numbers: [u64; NUMBERS],
    /// The forms of the sender and of the recipient.
    pub forms: [AddressForm<'a>; 2],
    pub kind: &'a [u8],
    pub identifier: &'a [u8],
    pub name: &'a [u8],
}

impl Fields<'_> {
    /// How many bytes the message has, where the forms have lengths that an address may have.
    pub fn length(&self) -> usize {
        let longer = self.forms.map(|form| form.length as usize - SHORT);
        SHORTEST + longer[0] + longer[1]
    }
}

/// The calls; each takes the raw bytes of a message.
pub trait Interface {
    fn read(message: &[u8]) -> u32;
    fn numbers(message: &[u8], space: &mut [u64]) -> u32;
    fn has_field(message: &[u8], field: u32) -> u32;
    fn start(message: &[u8], field: u32) -> usize;
    fn length(message: &[u8], field: u32) -> usize;
    fn has_number(message: &[u8], field: u32) -> u32;
    fn number(message: &[u8], field: u32) -> u64;
    fn has_place(message: &[u8], place: u32) -> u32;
    fn rate(message: &[u8], place: u32) -> u32;
    fn amount(message: &[u8], place: u32) -> u64;
    /// Writes the short form of both addresses, whatever their forms are.
    fn write(fields: &Fields, space: &mut [u8]) -> u32;
    fn write_addresses(fields: &Fields, space: &mut [u8]) -> u32;
}

/// Calls a function with the numbers of some fields one by one, and then with more.
macro_rules! with_numbers {
    ($call:path, $n:expr, $($more:expr),+) => {
        $call(
            $n[0], $n[1], $n[2], $n[3], $n[4], $n[5], $n[6], $n[7], $n[8], $n[9], $n[10], $n[11],
            $n[12], $n[13], $n[14], $n[15], $n[16], $n[17], $n[18], $n[19], $n[20], $n[21], $n[22],
            $n[23], $n[24], $n[25], $($more),+
        )
    };
}
pub(crate) use with_numbers;

/// Calls a function with the numbers of some fields one by one, those of the forms among them, and
/// then with more.
macro_rules! with_forms {
    ($call:path, $n:expr, $forms:expr, $($more:expr),+) => {
        $call(
            $n[0], $forms[0].length, $forms[0].branch, $n[1], $forms[1].length, $forms[1].branch,
            $n[2], $n[3], $n[4], $n[5], $n[6], $n[7], $n[8], $n[9], $n[10], $n[11], $n[12], $n[13],
            $n[14], $n[15], $n[16], $n[17], $n[18], $n[19], $n[20], $n[21], $n[22], $n[23], $n[24],
            $n[25], $($more),+
        )
    };
}
pub(crate) use with_forms;

/// The independent implementation.
pub struct Independent;

impl Interface for Independent {
    #[inline(always)]
    fn read(message: &[u8]) -> u32 {
        interface::read(message)
    }

    #[inline(always)]
    fn numbers(message: &[u8], space: &mut [u64]) -> u32 {
        interface::numbers(message, space)
    }

    #[inline(always)]
    fn has_field(message: &[u8], field: u32) -> u32 {
        interface::has_field(message, field)
    }

    #[inline(always)]
    fn start(message: &[u8], field: u32) -> usize {
        interface::start(message, field)
    }

    #[inline(always)]
    fn length(message: &[u8], field: u32) -> usize {
        interface::length(message, field)
    }

    #[inline(always)]
    fn has_number(message: &[u8], field: u32) -> u32 {
        interface::has_number(message, field)
    }

    #[inline(always)]
    fn number(message: &[u8], field: u32) -> u64 {
        interface::number(message, field)
    }

    #[inline(always)]
    fn has_place(message: &[u8], place: u32) -> u32 {
        interface::has_place(message, place)
    }

    #[inline(always)]
    fn rate(message: &[u8], place: u32) -> u32 {
        interface::rate(message, place)
    }

    #[inline(always)]
    fn amount(message: &[u8], place: u32) -> u64 {
        interface::amount(message, place)
    }

    #[inline(always)]
    fn write(fields: &Fields, space: &mut [u8]) -> u32 {
        let &Fields { numbers, kind, identifier, name, .. } = fields;
        with_numbers!(interface::write, numbers, kind, identifier, name, space)
    }

    #[inline(always)]
    #[rustfmt::skip] // The texts stand as in include/optes.h.
    fn write_addresses(fields: &Fields, space: &mut [u8]) -> u32 {
        let &Fields { numbers, forms, kind, identifier, name } = fields;
        with_forms!(
            interface::write_addresses, numbers, forms,
            forms[0].text, forms[1].text, kind, identifier, name, space
        )
    }
}
