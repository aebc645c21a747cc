//! The calls of a tender that lives in words, which the library and the independent one both have.

/// The least words that hold a tender.
pub const WORDS: usize = 1560;
/// How many awards there are.
pub const PLACES: usize = 640;

/// What a call returns where it is done, and where its words hold no tender.
pub const OK: u64 = 0;
pub const NO_TENDER: u64 = 100;

/// How many numbers each call tells.
pub const ANSWER_NUMBERS: usize = 18;
pub const ALLOTMENT_NUMBERS: usize = 2;
pub const TERMS_NUMBERS: usize = 21;
pub const CODES_NUMBERS: usize = 65;
pub const LIMITS_NUMBERS: usize = 65;
pub const HELD_NUMBERS: usize = 23;

/// The calls; each gives 0, the number of a refusal, or 100, and `state` gives the state or 100.
pub trait Book {
    fn open(words: &mut [u64], message: &[u8], codes: &[u32], limits: &[u64]) -> u64;
    fn receive(
        words: &mut [u64],
        message: &[u8],
        clock: (u64, u64),
        space: &mut [u8],
        told: &mut [u64],
    ) -> u64;
    fn close(words: &mut [u64], clock: (u64, u64)) -> u64;
    fn allot(words: &mut [u64], awards: &mut [u64], told: &mut [u64]) -> u64;
    /// The words are lent for writing, so that a preview that writes one is seen.
    fn preview(words: &mut [u64], awards: &mut [u64], told: &mut [u64]) -> u64;
    fn revoke(words: &mut [u64]) -> u64;
    fn state(words: &[u64]) -> u64;
    fn terms(words: &[u64], told: &mut [u64]) -> u64;
    fn codes(words: &[u64], told: &mut [u64]) -> u64;
    fn limits(words: &[u64], told: &mut [u64]) -> u64;
    fn held(words: &[u64], code: u64, told: &mut [u64]) -> u64;
}
