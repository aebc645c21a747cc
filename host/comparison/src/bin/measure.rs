//! Measures the library and its program beside the independent implementation.
//!
//! measure PROGRAM INDEPENDENT-LOG FOLDER

use comparison::measure::calls::measure_calls;
use comparison::measure::processes::measure_processes;
use comparison::measure::table::print_head;
use std::env;
use std::path::PathBuf;
use std::process::ExitCode;

fn main() -> ExitCode {
    let given: Vec<PathBuf> = env::args_os().skip(1).map(PathBuf::from).collect();
    let [program, independent, folder] = &given[..] else {
        eprintln!("measure PROGRAM INDEPENDENT-LOG FOLDER");
        return ExitCode::from(2);
    };
    print_head();
    let measured = measure_calls().and_then(|()| measure_processes(program, independent, folder));
    if let Err(told) = measured {
        eprintln!("measure: {told}");
        return ExitCode::FAILURE;
    }
    ExitCode::SUCCESS
}
