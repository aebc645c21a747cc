//! Addresses: the code of a sender or recipient, and with it in the long form one of its branches.

use crate::digits;

/// The lengths that an address may have.
pub const SHORT: usize = 5;
pub const LONG: usize = 14;

const DIGITS: usize = 5;
/// How many bytes the text of a branch has.
pub const TEXT_BYTES: usize = 2;

/// What an address is written from, and what it reads as.
#[derive(Clone, Copy, Debug, PartialEq, Eq)]
pub struct Address<'a> {
    pub code: u64,
    /// None in the short form.
    pub branch: Option<Branch<'a>>,
}

/// What a long address has after its code.
#[derive(Clone, Copy, Debug, PartialEq, Eq)]
pub struct Branch<'a> {
    pub number: u64,
    /// Any bytes.
    pub text: &'a [u8],
}

impl<'a> Address<'a> {
    /// The short form.
    pub const fn short(code: u64) -> Address<'a> {
        Address { code, branch: None }
    }

    /// The long form.
    pub const fn long(code: u64, number: u64, text: &'a [u8]) -> Address<'a> {
        Address { code, branch: Some(Branch { number, text }) }
    }

    /// Reads a field of either length, as a whole or, where a digit or slash is out of place, not
    /// at all.
    pub fn read(field: &'a [u8]) -> Option<Address<'a>> {
        let (code, rest) = field.split_at(DIGITS);
        let code = digits::number(code)?;
        if rest.is_empty() {
            return Some(Address::short(code));
        }
        let (number, text) = rest.split_at(rest.len() - TEXT_BYTES);
        let number = number.strip_prefix(b"/")?.strip_suffix(b"/")?;
        Some(Address::long(code, digits::number(number)?, text))
    }

    /// How many bytes the address has.
    pub fn length(&self) -> usize {
        if self.branch.is_some() {
            LONG
        } else {
            SHORT
        }
    }

    /// Whether the numbers are not too wide and the text has its length.
    pub fn fits(&self) -> bool {
        let branch_fits = |branch: Branch| {
            digits::has_room(branch.number, DIGITS) && branch.text.len() == TEXT_BYTES
        };
        digits::has_room(self.code, DIGITS) && self.branch.map_or(true, branch_fits)
    }

    /// Fills a space of the address's length, where the address fits.
    pub fn fill(&self, space: &mut [u8]) {
        let (code, rest) = space.split_at_mut(DIGITS);
        digits::fill(code, self.code);
        let Some(branch) = self.branch else { return };
        rest.fill(b'/');
        digits::fill(&mut rest[1..=DIGITS], branch.number);
        rest[DIGITS + 2..].copy_from_slice(branch.text);
    }
}

/// The bytes of an address that tell who it is, whatever follows them.
pub fn first_five(field: &[u8]) -> &[u8] {
    &field[..DIGITS]
}

#[cfg(test)]
mod tests {
    use super::*;

    fn filled(address: Address) -> Vec<u8> {
        let mut space = vec![0xee; address.length()];
        address.fill(&mut space);
        space
    }

    #[test]
    fn both_forms_make_the_trip_there_and_back() {
        assert_eq!(filled(Address::short(7)), b"00007");
        assert_eq!(filled(Address::long(90001, 12, b"AB")), b"90001/00012/AB");
        for text in [b"AB", b"//", b"\0\0", b"\xff\x80", b"00"] {
            let address = Address::long(99_999, 99_999, text);
            assert_eq!(Address::read(&filled(address)), Some(address));
        }
        assert_eq!(Address::read(b"01000"), Some(Address::short(1000)));
    }

    #[test]
    fn a_long_form_is_read_as_a_whole_or_not_at_all() {
        let sound = *b"90001/12345/AB";
        for index in 0..sound.len() {
            for byte in 0..=u8::MAX {
                let mut field = sound;
                field[index] = byte;
                let in_place = match index {
                    5 | 11 => byte == b'/',
                    12 | 13 => true,
                    _ => byte.is_ascii_digit(),
                };
                assert_eq!(Address::read(&field).is_some(), in_place, "{byte} at {index}");
            }
        }
    }

    #[test]
    fn wide_numbers_and_other_texts_do_not_fit() {
        assert!(Address::short(99_999).fits() && !Address::short(100_000).fits());
        assert!(Address::long(0, 99_999, b"\0/").fits());
        assert!(!Address::long(100_000, 0, b"AB").fits());
        assert!(!Address::long(0, 100_000, b"AB").fits());
        for text in [&b""[..], b"A", b"ABC"] {
            assert!(!Address::long(0, 0, text).fits());
        }
    }
}
