//! What a call is lent other than what it needs: short arrays and spaces, odd codes, damaged words.

use crate::calls::book::WORDS;
use crate::calls::layout::{CODES, COUNT, FORM, LIMITS, STATE};
use crate::calls::padded::MARGIN;
use crate::calls::step::{Call, Step};
use crate::random::Random;
use crate::sessions::plan::MOST_AMOUNT;
use independent::award::POSITIONS;

/// The least reply space.
pub const LEAST_SPACE: usize = 436;

/// A reply space, mostly long enough.
pub fn space(random: &mut Random) -> usize {
    match random.below(12) {
        0 => LEAST_SPACE - 1,
        1..=4 => LEAST_SPACE,
        5 => random.index(501),
        6 => random.pick(&[0, 1, 58, 59, 60, 67, 68, 69, 339, 357, 378, 396, 418, 434, 437]),
        _ => 500,
    }
}

/// Room for awards, mostly for all.
pub fn places(random: &mut Random) -> usize {
    match random.below(10) {
        0 => random.index(POSITIONS),
        1 => random.pick(&[0, 1, 10, POSITIONS - 1, POSITIONS + 1]),
        _ => POSITIONS,
    }
}

/// Gives an array of fewer or more numbers than the call tells, or more words than a tender has.
pub fn lend(random: &mut Random, step: &mut Step) {
    let told = step.call.told();
    let looks = matches!(step.call, Call::Terms | Call::Codes | Call::Limits | Call::Held { .. });
    if told > 0 && random.one_in(if looks { 2 } else { 8 }) {
        step.numbers = random.index(told + 4);
    }
    if random.one_in(12) {
        step.words = WORDS + random.index(MARGIN + 1);
    }
}

/// A list of admitted codes that is refused, or is close to it.
pub fn codes(random: &mut Random, codes: &[u32]) -> Vec<u32> {
    let mut codes = codes.to_vec();
    match random.below(8) {
        0 => codes.reverse(),
        1 => codes.push(codes[codes.len() - 1]),
        2 => codes.clear(),
        3 => codes = (0..65).collect(),
        4 => codes = vec![1, 2, random.pick(&[99_999, 100_000, u32::MAX])],
        5 => codes = vec![random.pick(&[100_000, u32::MAX])],
        6 => codes = (99_937..=100_000).collect(),
        _ => codes = vec![random.pick(&[0, 99_999])],
    }
    codes
}

/// A list of limits that is refused, or is close to it.
pub fn limits(random: &mut Random, limits: &[u64]) -> Vec<u64> {
    let mut limits = limits.to_vec();
    if random.one_in(2) {
        let index = random.index(limits.len());
        limits[index] = random.pick(&[MOST_AMOUNT, MOST_AMOUNT + 1, 1 << 63, u64::MAX]);
    }
    match random.below(8) {
        0 => limits.clear(),
        1 => limits.truncate(random.index(limits.len())),
        2 => limits.push(random.pick(&[0, 1, MOST_AMOUNT + 1])),
        3 => limits.resize(65, 0),
        _ => (),
    }
    limits
}

/// Words for the limits of so many codes that no opening, or another one, would have put there.
pub fn limit_words(random: &mut Random, codes: usize) -> Vec<(usize, u64)> {
    let wide = [MOST_AMOUNT + 1, (1 << 32) + 1, 1 << 63, u64::MAX - 1, u64::MAX];
    let mut set = |index| {
        let near = [0, 1, 9_999, random.below(1_000_000), random.below(MOST_AMOUNT)];
        let word = if random.one_in(3) { random.pick(&wide) } else { random.pick(&near) };
        (LIMITS + index, word)
    };
    (0..codes).map(&mut set).collect()
}

/// The same call on words that hold no tender, mostly none.
pub fn damage(random: &mut Random, step: &Step, codes: &[u32]) -> Option<Step> {
    if !random.one_in(16) {
        return None;
    }
    let mut step = step.clone();
    let many = random.pick(&[65, 66, 1 << 32, (1 << 32) + 1, u64::MAX]);
    match random.below(7) {
        0 => step.words = random.pick(&[0, 1, 3, 24, 855, LIMITS, WORDS - 1]),
        1 => step.words = random.index(WORDS),
        2 => step.sets.push((FORM, random.pick(&[0, 1, 3, (1 << 32) + 2, u64::MAX]))),
        3 => step.sets.push((STATE, random.pick(&[4, 5, 1 << 32, u64::MAX]))),
        4 => step.sets.push((COUNT, random.pick(&[0, many]))),
        _ if codes.len() < 2 => step.sets.push((COUNT, many)),
        _ => {
            let index = 1 + random.index(codes.len() - 1);
            let before = u64::from(codes[index - 1]);
            step.sets.push((CODES + index, random.pick(&[before, before, before / 2])));
        }
    }
    Some(step)
}
