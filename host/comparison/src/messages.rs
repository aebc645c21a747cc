//! 6G1 messages that are generated, and the comparison of reading and writing them.

pub mod comparison;
pub mod damage;
pub mod generate;
pub mod reading;
pub mod space;
pub mod tally;
pub mod writing;

/// The messages that are compared where none are asked for.
pub const DEFAULT_SEED: u64 = 20_120_312;
pub const DEFAULT_COUNT: u64 = 100_000;

#[cfg(test)]
mod tests {
    use super::comparison::Comparison;
    use super::*;

    #[test]
    fn the_messages_show_every_outcome() {
        let mut comparison = Comparison::default();
        if let Err(difference) = comparison.compare(DEFAULT_SEED, DEFAULT_COUNT) {
            panic!("{difference}");
        }
        assert_eq!(comparison.tally.missing(), []);
    }

    #[test]
    fn a_seed_always_makes_the_same_message() {
        assert_eq!(generate::case(7).message, generate::case(7).message);
        assert_ne!(generate::case(7).message, generate::case(8).message);
    }
}
