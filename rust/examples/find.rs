//! Prints the shortest reverse, of at most 3 commands, for an item that is to stand in a book:
//! find BOOK PHI PSI COMMAND...
//!
//! The commands are the item's forward ones; they and the masks are decimal numbers, or hexadecimal
//! ones with 0x before them. A book may have any length: as by the program rollback, a byte more is
//! judged of it than the largest has. Status 0 if there is a reverse, 1 if the library refuses, 2 on
//! bad usage or a file that can't be read or written, a closed pipe too. `c/find.c` does the same in
//! C.

mod files;

use std::env;
use std::ffi::OsString;
use std::path::Path;
use std::process::ExitCode;

use rollback::calls;

use files::{load, Failure};

/// A decimal number, or a hexadecimal one.
fn number(text: &OsString) -> Option<u64> {
    let text = text.to_str()?;
    let (digits, base) = match text.strip_prefix("0x") {
        Some(digits) => (digits, 16),
        None => (text, 10),
    };
    // from_str_radix would take a sign.
    let first = digits.chars().next()?;
    first.to_digit(base)?;
    u64::from_str_radix(digits, base).ok()
}

/// The file of the book, phi, psi and the forward commands.
fn arguments(given: &[OsString]) -> Option<(&Path, u64, u64, Vec<u8>)> {
    let [book, phi, psi, forward @ ..] = given else {
        return None;
    };
    let forward = forward
        .iter()
        .map(|command| u8::try_from(number(command)?).ok())
        .collect::<Option<_>>()?;
    Some((Path::new(book), number(phi)?, number(psi)?, forward))
}

fn answer() -> Result<String, Failure> {
    let given: Vec<_> = env::args_os().skip(1).collect();
    let Some((book, phi, psi, forward)) = arguments(&given) else {
        return Err(("usage: find BOOK PHI PSI COMMAND...".into(), 2));
    };
    let found =
        rollback::find(&load(book, calls::BOOK_LEN)?, &forward, phi, psi).map_err(|fault| {
            // 14 and 15 are no fault of the book.
            match fault.record() {
                Some(_) => (format!("{}: {fault}", book.display()), 1),
                None => (format!("find: {fault}"), 1),
            }
        })?;
    Ok(format!("send {found}\n"))
}

fn main() -> ExitCode {
    files::print(answer())
}
