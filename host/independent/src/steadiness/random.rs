//! Numbers that look random and are the same for the same seed.

/// The generator SplitMix64.
pub struct Random(u64);

impl Random {
    pub fn new(seed: u64) -> Random {
        Random(seed)
    }

    fn word(&mut self) -> u64 {
        self.0 = self.0.wrapping_add(0x9e37_79b9_7f4a_7c15);
        let first = (self.0 ^ (self.0 >> 30)).wrapping_mul(0xbf58_476d_1ce4_e5b9);
        let second = (first ^ (first >> 27)).wrapping_mul(0x94d0_49bb_1331_11eb);
        second ^ (second >> 31)
    }

    /// A number from 0 up to but not including the bound.
    pub fn below(&mut self, bound: u64) -> u64 {
        self.word() % bound
    }

    /// True once in so many times.
    pub fn one_in(&mut self, times: u64) -> bool {
        self.below(times) == 0
    }

    pub fn pick<T: Copy>(&mut self, choices: &[T]) -> T {
        choices[self.below(choices.len() as u64) as usize]
    }

    /// A number of this many decimal digits, the first of which is not zero.
    pub fn of_digits(&mut self, digits: u32) -> u64 {
        let least = 10_u64.pow(digits - 1);
        least + self.below(9 * least)
    }
}

#[cfg(test)]
mod tests {
    use super::*;

    /// The first words from seed 1234567 as the generator's authors give them.
    #[test]
    fn it_is_the_known_generator() {
        let mut random = Random::new(1_234_567);
        let words = [0; 3].map(|_| random.word());
        let known =
            [6_457_827_717_110_365_317, 3_203_168_211_198_807_973, 9_817_491_932_198_370_423];
        assert_eq!(words, known);
    }

    #[test]
    fn numbers_have_as_many_digits_as_asked_for() {
        let mut random = Random::new(1);
        for digits in 1..=15 {
            for _ in 0..100 {
                let number = random.of_digits(digits);
                assert_eq!(number.to_string().len(), digits as usize);
            }
        }
    }
}
