//! Files, standard output and status of the examples that are programs of their own.

use std::fmt::Display;
use std::fs::File;
use std::io::{self, Read, Write};
use std::path::Path;
use std::process::ExitCode;

/// What went wrong, and the status.
pub type Failure = (String, u8);

/// What the system says of a file that can't be read or written, without its number.
fn failure(name: impl Display, error: &io::Error) -> Failure {
    let words = error.to_string();
    let words = words.split(" (os error").next().unwrap_or_default();
    (format!("{name}: {words}"), 2)
}

/// The file's first bytes, one more at most than the largest book or run has.
pub fn load(name: &Path, largest: usize) -> Result<Vec<u8>, Failure> {
    let mut bytes = Vec::new();
    File::open(name)
        .and_then(|file| file.take(largest as u64 + 1).read_to_end(&mut bytes))
        .map_err(|error| failure(name.display(), &error))?;
    Ok(bytes)
}

/// Prints the text, or what went wrong; gives the status.
pub fn print(text: Result<String, Failure>) -> ExitCode {
    let printed = text.and_then(|text| {
        let mut out = io::stdout().lock();
        write!(out, "{text}")
            .and_then(|()| out.flush())
            .map_err(|error| failure("standard output", &error))
    });
    match printed {
        Ok(()) => ExitCode::SUCCESS,
        Err((words, status)) => {
            eprintln!("{words}");
            ExitCode::from(status)
        }
    }
}
