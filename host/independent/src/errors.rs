//! The errors of an application, in the order in which they are collected.

use crate::digits;

/// An error, with its place in that order as its value.
#[derive(Clone, Copy, Debug, PartialEq, Eq)]
pub enum ApplicationError {
    OtherType,
    SenderMalformed,
    SenderNotAdmitted,
    OtherRecipient,
    CroNotDigits,
    NoDate,
    OtherDate,
    NoTime,
    CheckDigitNotDigits,
    OtherIdentifier,
    PlaceMalformed,
    Gap,
    TooManyBids,
    FineRate,
    BelowMinimum,
    OffIncrement,
    AboveMaximum,
    Late,
    Superseded,
}

/// IDC and code of each error.
const TEXTS: [&[u8; 9]; 19] = [
    b"001 - 900",
    b"040 - 309",
    b"040 - 300",
    b"050 - 599",
    b"020 - 521",
    b"D31 - 502",
    b"D31 - 522",
    b"601 - 503",
    b"010 - 908",
    b"6G0 - 303",
    b"6G6 - 901",
    b"6G6 - 902",
    b"6G6 - 903",
    b"6G6 - 904",
    b"6G6 - 905",
    b"6G6 - 906",
    b"6G6 - 907",
    b"6G5 - 301",
    b"601 - 302",
];

/// The last text where there are more errors than a reply shows.
const MORE: &[u8; 9] = b"999 - 999";
const MOST_SHOWN: usize = 5;

/// The longest text that field 098 shows.
pub const LONGEST_TEXT: usize = MOST_SHOWN * (MORE.len() + 1) - 1;

/// A set of errors, one bit each.
#[derive(Clone, Copy, Debug, Default, PartialEq, Eq)]
pub struct Errors(u32);

impl Errors {
    /// Adds the error where the condition holds.
    pub fn add_if(&mut self, error: ApplicationError, condition: bool) {
        self.0 |= u32::from(condition) << error as u32;
    }

    pub fn is_empty(&self) -> bool {
        self.0 == 0
    }

    pub fn count(&self) -> usize {
        self.0.count_ones() as usize
    }

    /// The texts of all errors, in their order.
    fn texts(self) -> impl Iterator<Item = &'static [u8; 9]> {
        let mut left = self.0;
        std::iter::from_fn(move || {
            let text = TEXTS.get(left.trailing_zeros() as usize)?;
            left &= left - 1;
            Some(*text)
        })
    }

    /// The codes of all errors, in their order.
    pub fn codes(self) -> impl Iterator<Item = u64> {
        self.texts().filter_map(|text| digits::number(&text[6..]))
    }

    /// The texts that field 098 shows, which a slash joins.
    pub fn shown(self) -> impl Iterator<Item = &'static [u8; 9]> {
        let over = self.count() > MOST_SHOWN;
        let whole = if over { MOST_SHOWN - 1 } else { MOST_SHOWN };
        self.texts().take(whole).chain(over.then_some(MORE))
    }

    /// Appends the errors as field 098 shows them.
    pub fn push_text(self, out: &mut Vec<u8>) {
        for (index, text) in self.shown().enumerate() {
            if index > 0 {
                out.push(b'/');
            }
            out.extend_from_slice(text);
        }
    }
}

#[cfg(test)]
mod tests {
    use super::*;

    fn text(bits: u32) -> String {
        let mut out = Vec::new();
        Errors(bits).push_text(&mut out);
        String::from_utf8(out).unwrap()
    }

    #[test]
    fn five_errors_are_shown_and_a_sixth_is_told() {
        let five = "001 - 900/040 - 309/040 - 300/050 - 599/020 - 521";
        assert_eq!(text(0b11111), five);
        assert_eq!(text(0b111111), format!("{}999 - 999", &five[..40]));
        assert_eq!(text(1 << 18), "601 - 302");
        assert_eq!(text(0), "");
    }

    #[test]
    fn codes_are_the_numbers_of_the_texts() {
        let codes = |bits| Errors(bits).codes().collect::<Vec<_>>();
        assert_eq!(codes(0), []);
        assert_eq!(codes(1 << 18), [302]);
        assert_eq!(codes(0b111111), [900, 309, 300, 599, 521, 502]);
        assert_eq!(codes((1 << 19) - 1).len(), 19);
    }
}
