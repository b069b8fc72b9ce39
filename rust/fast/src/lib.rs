//! Books, runs and roll-back plans as in docs/FORMAT.md: a plain program written for speed, for the
//! benchmark to measure against. It answers as `rollback_plain` does and takes only its result types.
//!
//! Checking goes item by item and start by start, one command on one set at a time, and leaves no run
//! of commands early but where it is stuck. Finding a reverse takes the last command from sets of
//! commands and tries the others. Nothing is allocated. It takes about 25 KB of stack for checking,
//! which the library may not.

#![forbid(unsafe_code)]

mod assemble;
mod check;
mod find;
mod forecast;
mod item;
mod lookup;
mod numbers;
mod page;
mod read;
mod run;
mod step;
mod write;

pub use rollback_plain::{
    Assembly, Checking, Forecasted, Found, Leg, Lookup, Paged, Reading, Writing,
};

pub use assemble::{assemble, assemble_legs};
pub use check::check;
pub use find::find;
pub use forecast::forecast;
pub use lookup::{portable, ridge};
pub use page::page;
pub use read::read;
pub use write::write;

/// Entries of a lent table.
const TABLE: usize = 2048;
/// Most items in a book.
const ITEMS: usize = 64;
/// Bytes of lent slots.
const SLOTS: usize = ITEMS * item::SLOT;
/// Elements of lent weights.
const WEIGHTS: usize = 32;
/// Bytes of a lent plan.
const PLAN: usize = 256;
/// Most commands in a run, and legs in a chain.
const RUN: usize = 32;
/// Points of a run.
const POINTS: usize = RUN + 1;
/// Bytes of writing's lent output.
const OUT: usize = 31_178;

/// A refusal: code and place.
type Fault = (u64, usize);

/// All n states, n from 1 to 64.
#[inline]
fn all(n: usize) -> u64 {
    u64::MAX >> (64 - n)
}

/// The eight bytes at an offset as a number.
#[inline]
fn word(bytes: &[u8], at: usize) -> u64 {
    u64::from_le_bytes(*bytes[at..].first_chunk().unwrap())
}

/// Puts a number at an offset as eight bytes.
#[inline]
fn put(bytes: &mut [u8], at: usize, word: u64) {
    *bytes[at..].first_chunk_mut().unwrap() = word.to_le_bytes();
}
