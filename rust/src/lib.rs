//! Roll-back plans for repeaters.
//!
//! A book holds a device's transition table, its commands' weights (the air time that each takes)
//! and its items ("if these commands were sent, send those, provided the states before and after lie
//! in these sets"). A run holds what was sent and heard. [`plan`] checks a book and assembles from
//! its items the chain that undoes a run with the least sum of weights. [`find`] gives the shortest
//! reverse for an item whose other parts are known.
//!
//! All judging and planning is done by `libplanner.a`, whose answers are proved; this crate lends it
//! buffers and gives its answers types. [`calls`] has the calls themselves, of numbers and slices.
//!
//! Sets of states are 64-bit masks: state s is in a set when bit s is 1. `docs/FORMAT.md` has the
//! bytes of books and runs.
//!
//! Without the default feature `std` the crate needs `core` alone, and has [`calls`], [`forecast`],
//! [`find_in`], [`Reverse`], [`plan_small`], [`Item`], [`Fault`], [`WriteFault`], [`record_at`],
//! [`ridge`] and [`portable`].
//!
//! ```
//! // A switch: command 0 turns it off, command 1 on. "Off" undoes "on" if it was off before.
//! let outcomes = [0b01, 0b10, 0b01, 0b10];
//! let item = rollback::Item { forward: &[1], reverse: &[0], phi: 0b11, psi: 0b01 };
//! let book = rollback::write(2, 2, &outcomes, &[item], &[5, 3])?;
//!
//! // The item's reverse can be found too.
//! assert_eq!(rollback::find(&book, item.forward, item.phi, item.psi)?.item(), item);
//!
//! // It was seen off, then command 1 was sent, then nothing was heard.
//! let run = rollback::run(&[1], &[0b01, 0b11])?;
//! let plan = rollback::plan(&book, &run)?;
//! assert_eq!(plan.commands(), [0]);
//! assert_eq!(plan.sum(), 5);
//! assert_eq!(plan.to_string(), "send 0\nitem 0 from point 1 to 0: 0\n");
//! assert_eq!(plan.page(), "  1  1  0   0  1  0                     \n");
//!
//! // Had it not been seen off, it may have been on before, and nothing in the book undoes that.
//! let run = rollback::run(&[1], &[0b11, 0b11])?;
//! assert!(matches!(rollback::plan(&book, &run), Err(rollback::Fault::NoChain { .. })));
//! # Ok::<(), Box<dyn std::error::Error>>(())
//! ```
// There is no `plan` and no `find` to link to then.
#![cfg_attr(
    not(feature = "std"),
    doc = "\n[`plan`]: plan_small\n[`find`]: find_in"
)]
#![no_std]
#![deny(missing_docs)]
#![deny(unsafe_code)]
#![warn(clippy::pedantic)]
#![allow(clippy::result_large_err)] // 33 numbers in a fault; `core` has no box for them

#[cfg(feature = "std")]
extern crate std;

#[cfg(feature = "std")]
mod book;
pub mod calls;
mod fault;
mod find;
mod forecast;
mod item;
mod lines;
#[cfg(feature = "std")]
mod plan;
mod record;
mod small;

#[cfg(feature = "std")]
pub use book::{write, Book, CheckedBook};
pub use calls::Leg;
pub use fault::{Fault, WriteFault};
#[cfg(feature = "std")]
pub use find::find;
pub use find::{find_in, Reverse};
pub use forecast::{forecast, Forecast};
pub use item::Item;
#[cfg(feature = "std")]
pub use plan::{plan, run, Plan};
pub use record::{record_at, Kind, Record};
pub use small::{plan_small, SmallPlan};

/// In the 33 numbers of [`Assembly::fewest`](calls::Assembly::fewest) and [`Fault::NoChain`]: no chain from that point.
pub const NONE: u32 = 4_294_967_295;

/// The outcomes of a command of the ridge repeater in a state. None for a state over 63 or a
/// command over 15.
///
/// ```
/// assert_eq!(rollback::ridge(0, 13), Some(15));
/// assert_eq!(rollback::ridge(64, 0), None);
/// ```
#[must_use]
pub fn ridge(state: u64, command: u64) -> Option<u64> {
    mask_of(calls::ridge(state, command))
}

/// The outcomes of a command of the portable relay in a state. None for a state over 31 or a
/// command over 11.
///
/// ```
/// assert_eq!(rollback::portable(0, 5), Some(1 << 5));
/// assert_eq!(rollback::portable(16, 5), Some(1 << 16 | 1 << 21)); // in relay it may stay
/// assert_eq!(rollback::portable(32, 0), None);
/// ```
#[must_use]
pub fn portable(state: u64, command: u64) -> Option<u64> {
    mask_of(calls::portable(state, command))
}

fn mask_of(r: calls::Lookup) -> Option<u64> {
    (r.code == 0).then_some(r.mask)
}

/// A count of the library as a size; it has none that doesn't fit.
fn size(count: u64) -> usize {
    usize::try_from(count).unwrap_or(usize::MAX)
}
