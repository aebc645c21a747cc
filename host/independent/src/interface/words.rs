//! Up to eight digits in a word, the first digit in the lowest byte.

const ZEROS: u64 = u64::from_le_bytes(*b"00000000");

/// The values of the first WIDTH of eight bytes, with zeros before them.
#[inline]
pub fn first<const WIDTH: usize>(bytes: &[u8; 8]) -> u64 {
    (u64::from_le_bytes(*bytes) ^ ZEROS) << (64 - 8 * WIDTH)
}

/// Whether every byte of the word is at most 9.
#[inline]
pub fn are_digits(word: u64) -> bool {
    // A byte over 9 gets its highest bit from the sum or has it; its carry alters no other answer.
    (word | word.wrapping_add(0x7676_7676_7676_7676)) & 0x8080_8080_8080_8080 == 0
}

/// The number that eight digits write.
#[inline]
pub fn number(word: u64) -> u64 {
    const PAIRS: u64 = 0x0000_00ff_0000_00ff;
    let pairs = word.wrapping_mul(10).wrapping_add(word >> 8);
    let odd = (pairs & PAIRS).wrapping_mul(100 + (1_000_000 << 32));
    let even = ((pairs >> 16) & PAIRS).wrapping_mul(1 + (10_000 << 32));
    odd.wrapping_add(even) >> 32
}

/// The eight digits of a number below 100,000,000.
#[inline]
pub fn eight(number: u64) -> [u8; 8] {
    let number = number as u32; // Half a word divides faster.
    let fours = u64::from(number / 10_000) | (u64::from(number % 10_000) << 32);
    let hundreds = ((fours * 10_486) >> 20) & 0x0000_007f_0000_007f;
    let twos = hundreds | ((fours - 100 * hundreds) << 16);
    let tens = ((twos * 103) >> 10) & 0x000f_000f_000f_000f;
    let ones = tens | ((twos - 10 * tens) << 8);
    (ones | ZEROS).to_le_bytes()
}

/// The last WIDTH of the eight digits of a number below 100,000,000.
#[inline]
pub fn last<const WIDTH: usize>(number: u64) -> [u8; WIDTH] {
    let digits = eight(number);
    std::array::from_fn(|index| digits[8 - WIDTH + index])
}

#[cfg(test)]
mod tests {
    use super::*;

    #[test]
    fn eight_digits_make_the_trip_there_and_back() {
        for value in (0..100_000_000).step_by(9973).chain([99_999_999, 10_000, 9_999, 100, 99]) {
            let text = format!("{value:08}");
            assert_eq!(eight(value), text.as_bytes());
            let word = first::<8>(&eight(value));
            assert!(are_digits(word));
            assert_eq!(number(word), value);
        }
        assert_eq!(last::<5>(12_345), *b"12345");
        assert_eq!(number(first::<5>(b"12345/:x")), 12_345);
    }

    #[test]
    fn only_digits_are_digits() {
        for index in 0..8 {
            for byte in 0..=u8::MAX {
                for around in [b'0', b'9'] {
                    let mut text = [around; 8];
                    text[index] = byte;
                    assert_eq!(are_digits(first::<8>(&text)), byte.is_ascii_digit());
                }
            }
        }
    }
}
