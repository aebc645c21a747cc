//! Measures of the two programs that log a session.

use crate::measure::sessions;
use crate::measure::table::print_milliseconds;
use crate::measure::timing::alternate;
use std::fs::{self, File};
use std::path::Path;
use std::process::{Command, Stdio};

/// How often each program is run.
const RUNS: usize = 21;

/// A session to measure: its file, what the table says of it, and what makes it.
type Measured = (&'static str, &'static str, fn() -> Vec<u8>);

const SESSIONS: [Measured; 4] = [
    ("receptions", "a session of 200,000 accepted receptions", sessions::receptions),
    ("mixed", "a mixed session of 200,000 fields", sessions::mixed),
    ("rates", "300 tenders of 640 bids at 640 rates", sessions::different_rates),
    ("one-rate", "300 tenders of 640 bids at one rate", sessions::one_rate),
];

/// The program's log of the session in a file.
fn log(program: &Path, session: &Path) -> Result<Vec<u8>, String> {
    let told = |error| format!("{}: {error}", program.display());
    let input = File::open(session).map_err(told)?;
    let output = Command::new(program).stdin(input).output().map_err(told)?;
    if !output.status.success() || !output.stderr.is_empty() {
        return Err(format!("{} failed on {}", program.display(), session.display()));
    }
    Ok(output.stdout)
}

/// Runs the program on the session in a file, without keeping its log.
fn run(program: &Path, session: &Path) -> Result<(), String> {
    let told = |error| format!("{}: {error}", program.display());
    let input = File::open(session).map_err(told)?;
    let status = Command::new(program).stdin(input).stdout(Stdio::null()).status().map_err(told)?;
    if status.success() {
        Ok(())
    } else {
        Err(format!("{} failed on {}", program.display(), session.display()))
    }
}

/// Writes the sessions to files, compares the logs, then measures both programs.
pub fn measure_processes(program: &Path, independent: &Path, folder: &Path) -> Result<(), String> {
    for (name, what, make) in SESSIONS {
        let session = folder.join(format!("measured-{name}.session"));
        fs::write(&session, make()).map_err(|error| format!("{}: {error}", session.display()))?;
        if log(program, &session)? != log(independent, &session)? {
            return Err(format!("the logs of {} differ", session.display()));
        }
        let least = alternate(RUNS, || run(program, &session), || run(independent, &session))?;
        print_milliseconds(what, least);
    }
    Ok(())
}
