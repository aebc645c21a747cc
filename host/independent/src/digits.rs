//! Decimal numbers in fields of a fixed width.

/// The number that the digits write, or none where a byte is not a digit; at most 19 bytes.
pub fn number(text: &[u8]) -> Option<u64> {
    let mut value = 0;
    let mut all_digits = true;
    for &byte in text {
        let digit = byte.wrapping_sub(b'0');
        all_digits &= digit <= 9;
        value = value * 10 + u64::from(digit);
    }
    all_digits.then_some(value)
}

/// Whether every byte is a digit.
pub fn are_digits(text: &[u8]) -> bool {
    text.iter().all(u8::is_ascii_digit)
}

/// Whether the number has at most so many digits.
pub fn has_room(number: u64, width: usize) -> bool {
    number < 10u64.pow(width as u32)
}

/// Fills the space with the number's last digits, zeros first.
pub fn fill(space: &mut [u8], mut number: u64) {
    for byte in space.iter_mut().rev() {
        *byte = b'0' + (number % 10) as u8;
        number /= 10;
    }
}

/// Appends the number with so many digits, at most 20.
pub fn push(out: &mut Vec<u8>, number: u64, width: usize) {
    let mut text = [0; 20];
    fill(&mut text[..width], number);
    out.extend_from_slice(&text[..width]);
}

#[cfg(test)]
mod tests {
    use super::*;

    #[test]
    fn numbers_are_digits_only() {
        assert_eq!(number(b"00100"), Some(100));
        assert_eq!(number(b"999999999999999"), Some(999_999_999_999_999));
        for text in [&b"1 2"[..], b"+12", b"12/", b"12:", b"\xb112", b"\0"] {
            assert_eq!(number(text), None);
            assert!(!are_digits(text));
        }
    }

    #[test]
    fn written_digits_read_back() {
        let mut out = Vec::new();
        push(&mut out, 42, 5);
        assert_eq!(out, b"00042");
        assert!(has_room(99_999, 5) && !has_room(100_000, 5));
    }
}
