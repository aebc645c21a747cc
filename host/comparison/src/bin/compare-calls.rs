//! Compares generated sequences of calls on the library's tenders with the independent ones.
//!
//! compare-calls [SEED [COUNT]]
//! compare-calls --script FILE
//!
//! A difference is printed as the shortest script that was found for it, and written to
//! difference-SEED.calls in the working folder; the head of src/calls/script.rs describes scripts.

use comparison::arguments::seed_and_count;
use comparison::calls::comparison::{told, Comparison};
use comparison::calls::library_book::LibraryBook;
use comparison::calls::run::run;
use comparison::calls::{script, DEFAULT_COUNT, DEFAULT_SEED};
use std::process::ExitCode;
use std::{env, fs};

/// Compares generated sequences; the default ones must show everything.
fn compare(seed: u64, count: u64) -> ExitCode {
    let mut comparison = Comparison::<LibraryBook>::default();
    if let Err(differs) = comparison.compare(seed, count) {
        let script = differs.script();
        eprint!("compare-calls: seed {} differs\n{script}", differs.seed);
        let path = format!("difference-{}.calls", differs.seed);
        match fs::write(&path, script) {
            Ok(()) => eprintln!("compare-calls: compare-calls --script {path} runs it again"),
            Err(error) => eprintln!("compare-calls: {path}: {error}"),
        }
        return ExitCode::FAILURE;
    }
    println!("{}", comparison.tally.text());
    let missing = comparison.tally.missing();
    for name in &missing {
        println!("compare-calls: no call showed {name}");
    }
    if (seed, count) == (DEFAULT_SEED, DEFAULT_COUNT) && !missing.is_empty() {
        return ExitCode::FAILURE;
    }
    println!("compare-calls: {count} sequences from seed {seed} agree");
    ExitCode::SUCCESS
}

/// Runs a script and tells what each of its calls gave.
fn run_script(path: &str) -> Result<ExitCode, String> {
    let text = fs::read_to_string(path).map_err(|error| error.to_string())?;
    let steps = script::steps(&text)?;
    let mut number = 0;
    let stopped = run::<LibraryBook>(&steps, |step, seen| {
        number += 1;
        let errors: Vec<_> = seen.errors.iter().map(|code| format!(" {code}")).collect();
        println!("{number} {} gives {}{}", step.call.kind(), seen.result, errors.concat());
    });
    if let Err(stop) = stopped {
        eprint!("{}", told(&stop));
        return Ok(ExitCode::FAILURE);
    }
    println!("compare-calls: {number} calls of {path} agree");
    Ok(ExitCode::SUCCESS)
}

fn main() -> ExitCode {
    let given: Vec<String> = env::args().skip(1).collect();
    if let [option, path] = &given[..] {
        if option == "--script" {
            return run_script(path).unwrap_or_else(|wrong| {
                eprintln!("compare-calls: {path}: {wrong}");
                ExitCode::from(2)
            });
        }
    }
    match seed_and_count(given.into_iter(), DEFAULT_SEED, DEFAULT_COUNT) {
        Some((seed, count)) => compare(seed, count),
        None => {
            eprintln!("compare-calls [SEED [COUNT]] or compare-calls --script FILE");
            ExitCode::from(2)
        }
    }
}
