//! Running the program that is compared.

use std::io::{self, ErrorKind, Write};
use std::process::{Command, Stdio};
use std::thread;

/// What the program printed, and what it said on standard error.
pub struct Printed {
    pub log: Vec<u8>,
    pub said: Vec<u8>,
}

/// What the program prints and says for this input, or none where it failed.
pub fn output_of(program: &str, input: &[u8]) -> io::Result<Option<Printed>> {
    let mut command = Command::new(program);
    command.stdin(Stdio::piped()).stdout(Stdio::piped()).stderr(Stdio::piped());
    let mut child = command.spawn()?;
    let mut pipe = child.stdin.take().expect("standard input is a pipe");
    thread::scope(|scope| {
        let writer = scope.spawn(move || pipe.write_all(input));
        let output = child.wait_with_output()?;
        match writer.join().expect("the writer ends") {
            // A program whose log has ended need not read on.
            Err(error) if error.kind() != ErrorKind::BrokenPipe => Err(error),
            _ => Ok(output
                .status
                .success()
                .then_some(Printed { log: output.stdout, said: output.stderr })),
        }
    })
}
