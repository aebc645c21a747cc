//! The calls that write.

use super::words;
use super::{head, start_in_tail, NO_ROOM, OK, TAIL, TAIL_FIELDS, UNFIT};
use crate::address::{LONG, SHORT, TEXT_BYTES};
use crate::application::{Field, PLACES, PLACE_BYTES};
use crate::envelope::{self, HEADER};

/// The numbers of the digit fields after the addresses, in the order of the fields.
type Heading = [u64; 4];
/// The least numbers that are too wide: for an address, for those digit fields, for a rate and for
/// an amount.
const ADDRESS_BOUND: u64 = 100_000;
const HEADING_BOUNDS: Heading = [100_000_000_000, 100_000_000, 1_000_000, 100_000];
const RATE_BOUND: u64 = 100_000_000;
const AMOUNT_BOUND: u64 = 1_000_000_000_000_000;

/// An address that fits: its code, and in the long form a number and a text.
#[derive(Clone, Copy)]
struct Address<'a> {
    code: u64,
    branch: Option<(u64, &'a [u8; TEXT_BYTES])>,
}

impl<'a> Address<'a> {
    /// The short form, or none where the code is too wide.
    #[inline]
    fn short(code: u64) -> Option<Address<'a>> {
        (code < ADDRESS_BOUND).then_some(Address { code, branch: None })
    }

    /// The form of this length, or none where that is no length or something does not fit; the
    /// short form looks at its code alone.
    #[inline]
    fn of_length(code: u64, length: u64, number: u64, text: &'a [u8]) -> Option<Address<'a>> {
        let address = Address::short(code)?;
        if length == SHORT as u64 {
            return Some(address);
        }
        let branch = Some((number, text.try_into().ok()?));
        let fits = length == LONG as u64 && number < ADDRESS_BOUND;
        fits.then_some(Address { code, branch })
    }

    #[inline]
    fn length(&self) -> usize {
        if self.branch.is_some() {
            LONG
        } else {
            SHORT
        }
    }

    /// Puts the field with this tag into a space of its length.
    #[inline]
    fn put(&self, tag: u8, out: &mut [u8]) {
        put(out, 0, envelope::header(tag, self.length()));
        put(out, HEADER, words::last::<5>(self.code));
        if let Some((number, text)) = self.branch {
            out[HEADER + 5] = b'/';
            put(out, HEADER + 6, words::last::<5>(number));
            out[HEADER + 11] = b'/';
            put(out, HEADER + 12, *text);
        }
    }
}

/// The three texts, each of its length.
struct Texts<'a> {
    kind: &'a [u8; 3],
    identifier: &'a [u8; 11],
    name: &'a [u8; 15],
}

impl<'a> Texts<'a> {
    /// The texts where each has its length and the identifier is one.
    #[inline]
    fn of(kind: &'a [u8], identifier: &'a [u8], name: &'a [u8]) -> Option<Texts<'a>> {
        let (kind, name) = (kind.try_into().ok()?, name.try_into().ok()?);
        let identifier = identifier.try_into().ok()?;
        is_identifier(identifier).then_some(Texts { kind, identifier, name })
    }
}

/// Whether the text is `T/yyyy/nnnn` with any digits.
#[inline]
fn is_identifier(text: &[u8; 11]) -> bool {
    let &[t, first, y0, y1, y2, y3, second, n0, n1, n2, n3] = text;
    let digits = words::first::<8>(&[y0, y1, y2, y3, n0, n1, n2, n3]);
    [t, first, second] == *b"T//" && words::are_digits(digits)
}

#[inline]
fn put<const WIDTH: usize>(out: &mut [u8], start: usize, bytes: [u8; WIDTH]) {
    out[start..start + WIDTH].copy_from_slice(&bytes);
}

#[inline]
fn put_heads(tail: &mut [u8; TAIL]) {
    for field in TAIL_FIELDS {
        put(tail, start_in_tail(field) - HEADER, head(field));
    }
}

#[inline]
fn put_heading(tail: &mut [u8; TAIL], heading: &Heading) {
    let &[cro, date, time, check] = heading;
    put(tail, start_in_tail(Field::Cro), words::last::<3>(cro / 100_000_000));
    put(tail, start_in_tail(Field::Cro) + 3, words::eight(cro % 100_000_000));
    put(tail, start_in_tail(Field::ReferenceDate), words::eight(date));
    put(tail, start_in_tail(Field::ReferenceTime), words::last::<6>(time));
    put(tail, start_in_tail(Field::CheckDigit), words::last::<5>(check));
}

#[inline]
fn put_places(tail: &mut [u8; TAIL], rates: &[u64; PLACES], amounts: &[u64; PLACES]) {
    let start = start_in_tail(Field::Bids);
    let bids = &mut tail[start..start + PLACES * PLACE_BYTES];
    for (place, (&rate, &amount)) in
        bids.chunks_exact_mut(PLACE_BYTES).zip(rates.iter().zip(amounts))
    {
        place[..8].copy_from_slice(&words::eight(rate));
        // The first of these eight digits is zero, and the slash takes its byte.
        place[8..16].copy_from_slice(&words::eight(amount / 100_000_000));
        place[8] = b'/';
        place[16..].copy_from_slice(&words::eight(amount % 100_000_000));
    }
}

/// What a message has after its addresses, and its type.
struct Rest<'a> {
    heading: Heading,
    rates: [u64; PLACES],
    amounts: [u64; PLACES],
    texts: Option<Texts<'a>>,
}

impl Rest<'_> {
    #[inline]
    fn numbers_fit(&self) -> bool {
        self.heading.iter().zip(HEADING_BOUNDS).all(|(&number, bound)| number < bound)
            && self.rates.iter().all(|&rate| rate < RATE_BOUND)
            && self.amounts.iter().all(|&amount| amount < AMOUNT_BOUND)
    }

    /// Writes the message with these addresses, none where one of them does not fit.
    #[inline]
    fn write(&self, sender: Option<Address>, recipient: Option<Address>, space: &mut [u8]) -> u32 {
        let (true, Some(texts), Some(sender), Some(recipient)) =
            (self.numbers_fit(), &self.texts, sender, recipient)
        else {
            return UNFIT;
        };
        let sender_end = 2 * HEADER + texts.kind.len() + sender.length();
        let tail_start = sender_end + HEADER + recipient.length();
        let Some(out) = space.get_mut(..tail_start + TAIL) else { return NO_ROOM };
        let (front, tail) = out.split_at_mut(tail_start);
        put(front, 0, head(Field::Type));
        put(front, HEADER, *texts.kind);
        sender.put(0x04, &mut front[HEADER + texts.kind.len()..sender_end]);
        recipient.put(0x05, &mut front[sender_end..]);
        self.put_tail(texts, tail.try_into().expect("the tail has its length"));
        OK
    }

    #[inline]
    fn put_tail(&self, texts: &Texts, tail: &mut [u8; TAIL]) {
        put_heads(tail);
        put_heading(tail, &self.heading);
        put_places(tail, &self.rates, &self.amounts);
        put(tail, start_in_tail(Field::Identifier), *texts.identifier);
        put(tail, start_in_tail(Field::Name), *texts.name);
    }
}

/// 0 with a 6G1 with short addresses at the start of the space and the bytes past it as they were,
/// else 17 or 18.
#[inline(never)]
#[allow(clippy::too_many_arguments)] // The call from C has the same, one number after another.
#[rustfmt::skip] // The numbers stand as in include/optes.h.
pub fn write(
    sender: u64, recipient: u64, cro: u64, date: u64, time: u64, check: u64,
    rate0: u64, rate1: u64, rate2: u64, rate3: u64, rate4: u64,
    rate5: u64, rate6: u64, rate7: u64, rate8: u64, rate9: u64,
    amount0: u64, amount1: u64, amount2: u64, amount3: u64, amount4: u64,
    amount5: u64, amount6: u64, amount7: u64, amount8: u64, amount9: u64,
    kind: &[u8], identifier: &[u8], name: &[u8], space: &mut [u8],
) -> u32 {
    let rest = Rest {
        heading: [cro, date, time, check],
        rates: [rate0, rate1, rate2, rate3, rate4, rate5, rate6, rate7, rate8, rate9],
        amounts: [
            amount0, amount1, amount2, amount3, amount4,
            amount5, amount6, amount7, amount8, amount9,
        ],
        texts: Texts::of(kind, identifier, name),
    };
    rest.write(Address::short(sender), Address::short(recipient), space)
}

/// The same with each address in the form of its length, 5 or 14.
#[inline(never)]
#[allow(clippy::too_many_arguments)] // The call from C has the same, one number after another.
#[rustfmt::skip] // The numbers stand as in include/optes.h.
pub fn write_addresses(
    sender: u64, sender_length: u64, sender_branch: u64,
    recipient: u64, recipient_length: u64, recipient_branch: u64,
    cro: u64, date: u64, time: u64, check: u64,
    rate0: u64, rate1: u64, rate2: u64, rate3: u64, rate4: u64,
    rate5: u64, rate6: u64, rate7: u64, rate8: u64, rate9: u64,
    amount0: u64, amount1: u64, amount2: u64, amount3: u64, amount4: u64,
    amount5: u64, amount6: u64, amount7: u64, amount8: u64, amount9: u64,
    sender_text: &[u8], recipient_text: &[u8],
    kind: &[u8], identifier: &[u8], name: &[u8], space: &mut [u8],
) -> u32 {
    let rest = Rest {
        heading: [cro, date, time, check],
        rates: [rate0, rate1, rate2, rate3, rate4, rate5, rate6, rate7, rate8, rate9],
        amounts: [
            amount0, amount1, amount2, amount3, amount4,
            amount5, amount6, amount7, amount8, amount9,
        ],
        texts: Texts::of(kind, identifier, name),
    };
    let sender = Address::of_length(sender, sender_length, sender_branch, sender_text);
    let recipient =
        Address::of_length(recipient, recipient_length, recipient_branch, recipient_text);
    rest.write(sender, recipient, space)
}
