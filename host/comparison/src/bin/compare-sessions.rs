//! Compares a program's logs of generated sessions with the independent ones.
//!
//! compare-sessions PROGRAM [SEED [COUNT]]

use comparison::arguments::seed_and_count;
use comparison::sessions::comparison::{Comparison, Stop};
use comparison::sessions::{DEFAULT_COUNT, DEFAULT_SEED};
use std::env;
use std::process::ExitCode;

fn arguments() -> Option<(String, u64, u64)> {
    let mut given = env::args().skip(1);
    let program = given.next()?;
    let (seed, count) = seed_and_count(given, DEFAULT_SEED, DEFAULT_COUNT)?;
    Some((program, seed, count))
}

/// Tells what was compared.
fn summarise(comparison: &Comparison, seed: u64, count: u64) {
    let (tally, ended) = (&comparison.tally, comparison.ended);
    println!("{}", tally.text());
    for missing in tally.missing() {
        println!("compare-sessions: no log showed {missing}");
    }
    println!("compare-sessions: {count} sessions from seed {seed} agree, {ended} ended early");
}

fn main() -> ExitCode {
    let Some((program, seed, count)) = arguments() else {
        eprintln!("compare-sessions PROGRAM [SEED [COUNT]]");
        return ExitCode::from(2);
    };
    let mut comparison = Comparison::new(program.clone());
    let stopped = match comparison.compare(seed, count) {
        Ok(()) => {
            summarise(&comparison, seed, count);
            return ExitCode::SUCCESS;
        }
        Err(Stop::Differs(session)) => comparison.report(&session),
        Err(Stop::Failed(error)) => Err(error),
    };
    if let Err(error) = stopped {
        eprintln!("compare-sessions: {program}: {error}");
    }
    ExitCode::FAILURE
}
