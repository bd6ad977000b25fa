//! Reads the command line, runs the command and writes what it answers.

use heapimage::{run, Command, Failure};
use std::io::{self, ErrorKind, Write};
use std::process::ExitCode;

fn main() -> ExitCode {
    let arguments: Vec<_> = std::env::args_os().skip(1).collect();
    let status = Command::parse(&arguments).and_then(|command| run(&command)).and_then(|answer| {
        write_out(&answer.text)?;
        Ok(answer.status)
    });
    ExitCode::from(status.unwrap_or_else(|failure| {
        // Where the message cannot be written either, the status still says what happened.
        let _ = writeln!(io::stderr(), "heapimage: {}", failure.message);
        failure.status
    }))
}

/// Writes to standard output. A reader that has seen enough and closes it is no failure.
fn write_out(text: &str) -> Result<(), Failure> {
    let mut output = io::stdout().lock();
    match output.write_all(text.as_bytes()).and_then(|()| output.flush()) {
        Err(error) if error.kind() != ErrorKind::BrokenPipe => Err(Failure::unwritten(&error)),
        _ => Ok(()),
    }
}
