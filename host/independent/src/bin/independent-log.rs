//! Reads a session from standard input and writes its log to standard output.

use std::io;
use std::process::ExitCode;

fn main() -> ExitCode {
    match independent::session::stream(io::stdin().lock(), io::stdout().lock()) {
        Ok(()) => ExitCode::SUCCESS,
        Err(error) => {
            eprintln!("independent-log: {error}");
            ExitCode::FAILURE
        }
    }
}
