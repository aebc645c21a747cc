//! The table of measures.

use crate::measure::timing::Least;

/// Prints the names of the columns; a ratio below 1 is faster than Rust.
pub fn print_head() {
    println!("{:<54} {:>12} {:>12} {:>10}", "what", "ours", "Rust", "ours/Rust");
}

/// Prints a row whose times are those of so many calls.
pub fn print_nanoseconds(what: &str, least: Least, calls: u64) {
    let each = |seconds: f64| seconds * 1e9 / calls as f64;
    print_row(what, each(least.library.as_secs_f64()), each(least.independent.as_secs_f64()), "ns");
}

/// Prints a row of whole runs.
pub fn print_milliseconds(what: &str, least: Least) {
    let (library, independent) = (least.library.as_secs_f64(), least.independent.as_secs_f64());
    print_row(what, library * 1e3, independent * 1e3, "ms");
}

fn print_row(what: &str, library: f64, independent: f64, unit: &str) {
    let ratio = library / independent;
    println!("{what:<54} {library:>9.1} {unit} {independent:>9.1} {unit} {ratio:>10.2}");
}
