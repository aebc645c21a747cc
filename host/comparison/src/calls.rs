//! Sequences of calls on a tender that are generated, and the comparison of what each call does.

pub mod book;
pub mod buffers;
pub mod comparison;
pub mod cuts;
#[cfg(test)]
mod drawn;
#[cfg(test)]
mod faults;
pub mod generate;
pub mod independent_book;
pub mod layout;
pub mod library_book;
pub mod limits;
pub mod look;
pub mod padded;
pub mod previews;
pub mod reduce;
pub mod run;
pub mod script;
pub mod simplify;
pub mod step;
pub mod tally;
pub mod twist;

/// The sequences that are compared where none are asked for.
pub const DEFAULT_SEED: u64 = 20_120_312;
pub const DEFAULT_COUNT: u64 = 20_000;

#[cfg(test)]
mod tests {
    use super::comparison::Comparison;
    use super::drawn::Drawn;
    use super::faults::{Faulty, FAULTS, NO_FAULT};
    use super::independent_book::IndependentBook;
    use super::library_book::LibraryBook;
    use super::reduce::difference;
    use super::step::Step;
    use super::*;

    #[test]
    fn the_sequences_show_every_call_refusal_and_error() {
        let mut comparison = Comparison::<LibraryBook>::default();
        if let Err(differs) = comparison.compare(DEFAULT_SEED, DEFAULT_COUNT / 5) {
            panic!("{}", differs.script());
        }
        assert_eq!(comparison.tally.missing(), [""; 0]);
    }

    #[test]
    fn the_sequences_draw_the_boundaries() {
        let mut drawn = Drawn::default();
        for seed in DEFAULT_SEED..DEFAULT_SEED + DEFAULT_COUNT / 10 {
            drawn.count(&generate::sequence(seed));
        }
        assert_eq!(drawn.counts.len(), 70, "each boundary was looked for: {:?}", drawn.counts);
        assert!(drawn.counts.values().all(|&count| count >= 20), "{:?}", drawn.counts);
    }

    #[test]
    fn a_seed_always_makes_the_same_sequence() {
        assert_eq!(generate::sequence(7), generate::sequence(7));
        assert_ne!(generate::sequence(7), generate::sequence(8));
    }

    /// The most steps that may be left of the first sequence that shows a fault, and of those of the
    /// faults that need many bids: a bid cut to zero that stays in line, and the marginal rate of the
    /// uncut bids.
    const FEW: usize = 5;
    const MORE: usize = 7;
    const LONGER: [usize; 2] = [21, 24];

    /// The number of the sequence that shows the fault, and the steps that are left of it; its script
    /// shows the fault, too.
    fn shown<const FAULT: usize>(first: u64) -> (u64, Vec<Step>) {
        let fault = FAULTS[FAULT];
        let mut comparison = Comparison::<Faulty<FAULT>>::default();
        let Err(differs) = comparison.compare(DEFAULT_SEED + first, 2000 - first) else {
            panic!("{fault}: not found from sequence {first} on")
        };
        let script = script::steps(&differs.script()).expect("the script can be read");
        assert!(difference::<Faulty<FAULT>>(&script).is_some(), "{fault}: not in the script");
        assert!(difference::<IndependentBook>(&script).is_none(), "{fault}: found without it");
        (differs.seed - DEFAULT_SEED, script)
    }

    /// How many steps are left of the first sequence that shows the fault.
    fn steps_for<const FAULT: usize>() -> usize {
        shown::<FAULT>(0).1.len()
    }

    fn most_steps(fault: usize) -> usize {
        if LONGER.contains(&fault) {
            MORE
        } else {
            FEW
        }
    }

    /// Looks for a sequence that shows a longer fault in few steps.
    fn find_few_steps<const FAULT: usize>() {
        let (mut last, mut steps) = shown::<FAULT>(0);
        assert!(steps.len() > FEW, "the exception for it is not needed any more");
        // Where no sequence is left this panics.
        while steps.len() > FEW {
            (last, steps) = shown::<FAULT>(last + 1);
        }
    }

    #[test]
    fn the_longer_faults_are_told_in_few_steps_later() {
        find_few_steps::<{ LONGER[0] }>();
        find_few_steps::<{ LONGER[1] }>();
    }

    /// Whether the first sequence that shows the fault has no such call left.
    fn is_shown_without<const FAULT: usize>(kind: &str) -> bool {
        shown::<FAULT>(0).1.iter().all(|step| step.call.kind() != kind)
    }

    /// The faults that a cent goes to the last bid of a rate, in allotments and in no preview, and that
    /// a refused preview writes a word.
    const CENT: usize = 3;
    const WORD: usize = 34;

    #[test]
    fn faults_are_found_without_the_calls_that_have_them() {
        assert!(is_shown_without::<CENT>("allot"));
        assert!(is_shown_without::<WORD>("preview"));
    }

    #[test]
    fn the_book_of_the_faults_differs_by_them_alone() {
        let mut comparison = Comparison::<Faulty<NO_FAULT>>::default();
        if let Err(differs) = comparison.compare(DEFAULT_SEED, DEFAULT_COUNT / 10) {
            panic!("{}", differs.script());
        }
    }

    #[test]
    fn every_fault_is_found_and_told_in_few_steps() {
        let steps = [
            steps_for::<0>(),
            steps_for::<1>(),
            steps_for::<2>(),
            steps_for::<3>(),
            steps_for::<4>(),
            steps_for::<5>(),
            steps_for::<6>(),
            steps_for::<7>(),
            steps_for::<8>(),
            steps_for::<9>(),
            steps_for::<10>(),
            steps_for::<11>(),
            steps_for::<12>(),
            steps_for::<13>(),
            steps_for::<14>(),
            steps_for::<15>(),
            steps_for::<16>(),
            steps_for::<17>(),
            steps_for::<18>(),
            steps_for::<19>(),
            steps_for::<20>(),
            steps_for::<21>(),
            steps_for::<22>(),
            steps_for::<23>(),
            steps_for::<24>(),
            steps_for::<25>(),
            steps_for::<26>(),
            steps_for::<27>(),
            steps_for::<28>(),
            steps_for::<29>(),
            steps_for::<30>(),
            steps_for::<31>(),
            steps_for::<32>(),
            steps_for::<33>(),
            steps_for::<34>(),
        ];
        assert_eq!(steps.len(), FAULTS.len());
        let few = steps.iter().enumerate().all(|(fault, &steps)| steps <= most_steps(fault));
        assert!(few, "{steps:?}");
    }
}
