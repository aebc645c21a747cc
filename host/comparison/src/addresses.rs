//! Addresses that are drawn in either form, and what is out of place in a long one.

pub mod shown;

use crate::damage::put_near;
use crate::random::Random;
use independent::address::{Address, LONG, SHORT, TEXT_BYTES};
use std::ops::Range;

/// Where the second number and the slashes of a long address stand.
const SECOND_FIVE: Range<usize> = 6..11;
const SLASHES: [usize; 2] = [5, 11];

/// The text of a branch: any bytes, often such as stand elsewhere in an address or end a text.
pub fn text(random: &mut Random) -> [u8; TEXT_BYTES] {
    match random.below(4) {
        0 => *b"AB",
        1 => [random.pick(b"/0\0\n\xff"), random.pick(b"/0\0\n\xff")],
        _ => [random.word() as u8, random.word() as u8],
    }
}

/// The second number of a long address.
pub fn number(random: &mut Random) -> u64 {
    let any = random.below(100_000);
    random.pick(&[0, 1, 99_999, any, any])
}

/// An address with this code; about a third are long.
pub fn address<'a>(random: &mut Random, code: u64, text: &'a [u8; TEXT_BYTES]) -> Address<'a> {
    if random.one_in(3) {
        Address::long(code, number(random), text)
    } else {
        Address::short(code)
    }
}

/// Puts something out of place after the code of a long address; a short one stays.
pub fn spoil(random: &mut Random, address: &mut [u8]) {
    if address.len() != LONG {
        return;
    }
    match random.below(5) {
        0 => put_near(random, &mut address[SECOND_FIVE]),
        1 => put_near(random, &mut address[SHORT..]),
        2 => address[random.pick(&SLASHES)] = random.pick(b"0-\\ \0"),
        // The slashes come to stand a byte too early.
        3 => address[SHORT..].rotate_left(1),
        _ => address[SHORT..].iter_mut().for_each(|byte| *byte = random.word() as u8),
    }
}

/// Whether a long address is not read and would be if its second number were digits.
pub fn is_wrong_by_second_five(address: &[u8]) -> bool {
    is_wrong_by(address, |address| address[SECOND_FIVE].fill(b'0'))
}

/// Whether a long address is not read and would be if its slashes were in place.
pub fn is_wrong_by_slash(address: &[u8]) -> bool {
    is_wrong_by(address, |address| SLASHES.iter().for_each(|&slash| address[slash] = b'/'))
}

fn is_wrong_by(address: &[u8], repair: impl FnOnce(&mut [u8])) -> bool {
    let mut repaired = address.to_vec();
    if address.len() == LONG {
        repair(&mut repaired);
    }
    Address::read(address).is_none() && Address::read(&repaired).is_some()
}

#[cfg(test)]
mod tests {
    use super::*;

    #[test]
    fn what_alone_is_wrong_is_told() {
        let told = |address: &[u8]| (is_wrong_by_second_five(address), is_wrong_by_slash(address));
        assert_eq!(told(b"90001/12345/AB"), (false, false));
        assert_eq!(told(b"90001/1234x/AB"), (true, false));
        assert_eq!(told(b"90001-12345/AB"), (false, true));
        assert_eq!(told(b"90001-1234x/AB"), (false, false));
        assert_eq!(told(b"9000x/1234x/AB"), (false, false));
        assert_eq!(told(b"9000x"), (false, false));
    }
}
