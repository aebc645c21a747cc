//! Sessions that are generated, and the comparison of their logs.

pub mod comparison;
pub mod days;
pub mod generate;
pub mod plan;
pub mod program;
#[cfg(test)]
mod rare;
pub mod spoil;
pub mod tally;

/// The sessions that are compared where none are asked for.
pub const DEFAULT_SEED: u64 = 20_120_312;
pub const DEFAULT_COUNT: u64 = 2000;

#[cfg(test)]
mod tests {
    use super::rare::Drawn;
    use super::tally::Tally;
    use super::*;
    use independent::session;

    #[test]
    fn the_sessions_show_everything_that_a_log_can() {
        let mut tally = Tally::default();
        for seed in DEFAULT_SEED..DEFAULT_SEED + DEFAULT_COUNT {
            tally.count(&session::log(&generate::session(seed)));
        }
        assert_eq!(tally.missing(), [""; 0]);
        assert!(tally.of("C") > 10_000 && tally.of("W") > 5_000, "{}", tally.text());
    }

    #[test]
    fn the_sessions_draw_what_is_rare() {
        let mut drawn = Drawn::default();
        for seed in DEFAULT_SEED..DEFAULT_SEED + DEFAULT_COUNT {
            drawn.count(&generate::session(seed));
        }
        assert_eq!(drawn.counts.len(), 25, "each kind was looked for");
        assert!(drawn.counts.values().all(|&count| count >= 50), "{:?}", drawn.counts);
    }

    #[test]
    fn a_seed_always_makes_the_same_session() {
        assert_eq!(generate::session(7), generate::session(7));
        assert_ne!(generate::session(7), generate::session(8));
    }
}
