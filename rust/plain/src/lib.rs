//! Books, runs and roll-back plans as in docs/FORMAT.md, written from the papers behind it alone.
//!
//! Nothing is allocated: the caller lends every buffer. A refusal is a code
//! and a place; code 0 is done.

#![forbid(unsafe_code)]

use std::ops::RangeInclusive;

mod accept;
mod assemble;
mod find;
mod forecast;
mod lookup;
mod page;
mod portable;
mod read;
mod ridge;
mod run;
mod sets;
mod slot;
mod small;
mod write;

pub use assemble::{assemble, assemble_legs};
pub use find::find;
pub use forecast::forecast;
pub use page::page;
pub use portable::portable;
pub use read::{check, read};
pub use ridge::ridge;
pub use small::assemble_small;
pub use write::write;

/// Entries of a lent table.
pub(crate) const TABLE: usize = 2048;
/// Most items in a book.
pub(crate) const ITEMS: usize = 64;
/// Bytes of lent slots.
pub(crate) const SLOTS: usize = ITEMS * slot::SIZE;
/// Elements of lent weights.
pub(crate) const WEIGHTS: usize = 32;
/// What a weight may be.
pub(crate) const WEIGHT: RangeInclusive<u16> = 1..=1000;
/// Bytes of a lent plan.
pub(crate) const PLAN: usize = 256;
/// Most commands in a run, and legs in a chain.
pub(crate) const RUN: usize = 32;
/// Points of a run: one before each command and one after the last.
pub(crate) const POINTS: usize = RUN + 1;
/// Bytes of writing's lent output.
pub(crate) const OUT: usize = 31_178;

/// What reading answers.
#[derive(Clone, Copy, Debug, PartialEq, Eq)]
pub struct Reading {
    pub code: u64,
    pub place: u64,
    pub n: u64,
    pub m: u64,
    pub items: u64,
}

/// What checking answers: with the units that it made.
#[derive(Clone, Copy, Debug, PartialEq, Eq)]
pub struct Checking {
    pub code: u64,
    pub place: u64,
    pub n: u64,
    pub m: u64,
    pub items: u64,
    pub units: u64,
}

/// What a forecast answers.
#[derive(Clone, Copy, Debug, PartialEq, Eq)]
pub struct Forecasted {
    pub code: u64,
    pub place: u64,
    pub units: u64,
    pub plan_bytes: u64,
    pub legs: u64,
}

/// What finding a reverse answers: how many commands it has, and the commands.
#[derive(Clone, Copy, Debug, PartialEq, Eq)]
pub struct Found {
    pub code: u64,
    pub place: u64,
    pub count: u64,
    pub commands: [u8; 3],
}

/// What assembling answers.
#[derive(Clone, Copy, Debug, PartialEq, Eq)]
pub struct Assembly {
    pub code: u64,
    pub place: u64,
    pub commands: u64,
    pub legs: u64,
    pub sum: u64,
    pub fewest: [u32; 33],
}

/// What the page answers: assembling's answer, and how many bytes it has.
#[derive(Clone, Copy, Debug, PartialEq, Eq)]
pub struct Paged {
    pub assembly: Assembly,
    pub length: u64,
}

/// What writing answers.
#[derive(Clone, Copy, Debug, PartialEq, Eq)]
pub struct Writing {
    pub code: u64,
    pub place: u64,
    pub length: u64,
}

/// What a lookup answers.
#[derive(Clone, Copy, Debug, PartialEq, Eq)]
pub struct Lookup {
    pub code: u64,
    pub place: u64,
    pub mask: u64,
}

/// One item of a chain, from its upper point down to its lower one.
#[derive(Clone, Copy, Debug, PartialEq, Eq, Default)]
pub struct Leg {
    pub item: u8,
    pub upper: u8,
    pub lower: u8,
}

/// The buffers that reading fills.
pub(crate) struct Lent<'a> {
    pub table: &'a mut [u64],
    pub slots: &'a mut [u8],
    pub weights: &'a mut [u16],
}

/// A refusal.
#[derive(Clone, Copy)]
pub(crate) struct Fault {
    pub code: u64,
    pub place: u64,
}

impl Fault {
    pub fn new(code: u64, place: usize) -> Self {
        Fault {
            code,
            place: place as u64,
        }
    }
}

#[cfg(test)]
mod tests;
