//! Tells how far one bid can push another, on all small lists of bids and on random ones.
//!
//! independent-steadiness [SEED]

use independent::steadiness::drawn::{Drawn, COUNT, DEFAULT_SEED};
use independent::steadiness::exhaustive::{Exhaustive, SIZES};
use independent::steadiness::tally::grouped;
use std::env;
use std::process::ExitCode;

/// The seed that is asked for, or none where the words are not one number.
fn seed(mut words: impl Iterator<Item = String>) -> Option<u64> {
    let seed = words.next().map_or(Some(DEFAULT_SEED), |text| text.parse().ok())?;
    words.next().is_none().then_some(seed)
}

fn require_all(missing: &[String]) -> Result<(), String> {
    let lines: Vec<String> = missing.iter().map(|text| format!("no pair showed {text}")).collect();
    if lines.is_empty() {
        return Ok(());
    }
    Err(lines.join("\n"))
}

/// Compares all small lists, and tells for each d how far another award moved.
fn compare_small() -> Result<(), String> {
    let mut small = Exhaustive::default();
    for (length, most) in SIZES {
        small.compare(length, most)?;
    }
    for (d, tally) in small.tallies.iter().enumerate() {
        let (d, pairs, greatest) = (d + 1, grouped(tally.pairs), tally.greatest);
        println!("steadiness: d {d}: {pairs} pairs, another award moved by at most {greatest}");
    }
    require_all(&small.missing())
}

/// The greatest move in words: d, or less.
fn at_most(beyond: i64) -> String {
    if beyond == 0 {
        "d".to_string()
    } else {
        format!("d - {}", beyond.unsigned_abs())
    }
}

/// Compares random lists, and tells how far another award moved beside d.
fn compare_drawn(seed: u64) -> Result<(), String> {
    let mut drawn = Drawn::default();
    drawn.compare(seed, COUNT)?;
    let (pairs, cut) = (grouped(drawn.tally.pairs), grouped(drawn.cut));
    let moved = format!("another award moved by at most {}", at_most(drawn.tally.beyond));
    println!("steadiness: seed {seed}: {pairs} random pairs, {cut} after credit cuts, {moved}");
    require_all(&drawn.missing())
}

fn main() -> ExitCode {
    let Some(seed) = seed(env::args().skip(1)) else {
        eprintln!("independent-steadiness [SEED]");
        return ExitCode::from(2);
    };
    let mut status = ExitCode::SUCCESS;
    for compared in [compare_small(), compare_drawn(seed)] {
        if let Err(wrong) = compared {
            eprintln!("independent-steadiness: {wrong}");
            status = ExitCode::FAILURE;
        }
    }
    status
}
