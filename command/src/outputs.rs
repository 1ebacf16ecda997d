//! Results to standard output, and messages to standard error.

use crate::inputs::reason;
use crate::{progress, standard, Failure, Status};
use std::io::{self, Write};

/// Writes to standard output.
pub fn print(bytes: &[u8]) -> Result<Status, Failure> {
    let result = progress::aside(|| {
        let mut out = io::stdout().lock();
        out.write_all(bytes).and_then(|()| out.flush())
    });
    match result {
        Ok(()) if standard::output_was_open() => Ok(Status::Accepted),
        Ok(()) => Err(Failure::Said("standard output: it is closed".to_string())),
        Err(error) if error.kind() == io::ErrorKind::BrokenPipe => Err(Failure::Closed),
        Err(error) => Err(Failure::Said(format!("standard output: {}", reason(&error)))),
    }
}

/// Writes a line to standard output.
pub fn print_line(line: &str) -> Result<Status, Failure> {
    print(format!("{line}\n").as_bytes())
}

/// Writes a message to standard error. There is nowhere to tell that this failed.
pub fn complain(message: &str) {
    progress::aside(|| {
        let _ = writeln!(io::stderr().lock(), "{}: {message}", crate::cli::NAME);
    });
}
