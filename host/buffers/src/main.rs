//! Tells whether a byte buffer as long as a 6G1 stands between a message and its reply.

use std::ffi::OsString;
use std::io::Write;
use std::path::Path;
use std::process::ExitCode;

fn main() -> ExitCode {
    let words: Vec<OsString> = std::env::args_os().skip(1).collect();
    let [root] = &words[..] else {
        eprintln!("buffers: one word is taken, the folder of the repository");
        return ExitCode::from(2);
    };
    let report = match buffers::look(Path::new(root)) {
        Ok(report) => report,
        Err(error) => {
            eprintln!("buffers: the sources in {root:?} cannot be read: {error}");
            return ExitCode::from(2);
        }
    };
    for finding in &report.findings {
        eprintln!("buffers: {}:{}: {}", finding.path, finding.remark.line, finding.remark.text);
    }
    if !report.findings.is_empty() {
        return ExitCode::FAILURE;
    }
    let told = writeln!(
        std::io::stdout(),
        "buffers: {} functions of {} crates, no buffer of {} bytes",
        report.functions,
        report.crates.len(),
        buffers::SHORTEST_6G1
    );
    if told.is_err() {
        return ExitCode::FAILURE;
    }
    ExitCode::SUCCESS
}
