//! Compares reading and writing of generated messages by the library with the independent ones.
//!
//! compare-messages [SEED [COUNT]]

use comparison::arguments::seed_and_count;
use comparison::messages::comparison::Comparison;
use comparison::messages::{DEFAULT_COUNT, DEFAULT_SEED};
use std::env;
use std::process::ExitCode;

fn main() -> ExitCode {
    let given = env::args().skip(1);
    let Some((seed, count)) = seed_and_count(given, DEFAULT_SEED, DEFAULT_COUNT) else {
        eprintln!("compare-messages [SEED [COUNT]]");
        return ExitCode::from(2);
    };
    let mut comparison = Comparison::default();
    if let Err(differs) = comparison.compare(seed, count) {
        eprintln!("compare-messages: {differs}");
        return ExitCode::FAILURE;
    }
    println!("{}", comparison.tally.text());
    for missing in comparison.tally.missing() {
        println!("compare-messages: no message showed {missing:?}");
    }
    println!("compare-messages: {count} messages from seed {seed} agree");
    ExitCode::SUCCESS
}
