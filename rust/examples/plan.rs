//! Prints the plan that undoes a run, with --page its page and nothing else, with --small the plan as
//! assembled with little memory: plan [--page | --small] BOOK RUN
//!
//! A file may have any length: as by the program rollback, a byte more is judged of it than the
//! largest book or run has. Status 0 if there is a plan, 1 if the library refuses, 2 on bad usage or
//! a file that can't be read or written, a closed pipe too. `c/plan.c` does the same in C.

mod files;

use std::env;
use std::path::Path;
use std::process::ExitCode;

use rollback::{calls, Fault};

use files::{load, Failure};

/// The page or the plan.
fn text(option: Option<&str>, book: &[u8], run: &[u8]) -> Result<String, Box<Fault>> {
    match option {
        Some("--small") => {
            let mut scratch = [0; calls::SCRATCH_LEN];
            let (mut plan, mut legs) = ([0; calls::PLAN_LEN], [0; calls::LEGS_LEN]);
            let plan = rollback::plan_small(book, run, &mut scratch, &mut plan, &mut legs)?;
            Ok(plan.to_string())
        }
        Some(_) => Ok(rollback::plan(book, run)?.page().into()),
        None => Ok(rollback::plan(book, run)?.to_string()),
    }
}

fn answer() -> Result<String, Failure> {
    let names: Vec<_> = env::args_os().skip(1).collect();
    let (option, names) = match names.split_first() {
        Some((name, rest)) if name == "--page" || name == "--small" => (name.to_str(), rest),
        _ => (None, names.as_slice()),
    };
    let [book, run] = names else {
        return Err(("usage: plan [--page | --small] BOOK RUN".into(), 2));
    };
    let (book, run) = (Path::new(book), Path::new(run));
    let book_bytes = load(book, calls::BOOK_LEN)?;
    let run_bytes = load(run, calls::RUN_LEN)?;
    text(option, &book_bytes, &run_bytes).map_err(|fault| {
        let file = if fault.record().is_some() { book } else { run };
        (format!("{}: {fault}", file.display()), 1)
    })
}

fn main() -> ExitCode {
    files::print(answer())
}
