use crate::calls::{self, POINTS_LEN};
use crate::{size, Fault, NONE};

/// How much checking a book will take, and how long a plan by it can be.
#[derive(Clone, Copy, Debug, PartialEq, Eq)]
pub struct Forecast {
    /// The units of checking, at most 65,536: one is one command applied to one set of states.
    /// Checking makes as many where it accepts the book, and never more.
    pub units: u64,
    /// No plan for a run of so many commands has more commands.
    pub plan_bytes: usize,
    /// No plan for a run of so many commands has more legs.
    pub legs: usize,
}

/// Forecasts how much checking a book will take, and how long a plan for a run of so many commands
/// can be. No command is applied, and no item is judged.
///
/// # Errors
/// Codes 2 to 7 and 13: the bytes are no book. Code 9: over 32 commands.
///
/// ```
/// // A switch: command 0 turns it off, command 1 on; an item with one start, psi, and two commands.
/// let item = rollback::Item { forward: &[1], reverse: &[0], phi: 0b11, psi: 0b01 };
/// let book = rollback::write(2, 2, &[0b01, 0b10, 0b01, 0b10], &[item], &[])?;
///
/// let forecast = rollback::forecast(&book, 5)?;
/// assert_eq!(forecast.units, 2);
/// assert_eq!((forecast.plan_bytes, forecast.legs), (5, 5));
/// assert_eq!(rollback::Book::check(&book)?.units(), forecast.units);
/// assert_eq!(rollback::forecast(&book, 33), Err(rollback::Fault::Run));
/// # Ok::<(), Box<dyn std::error::Error>>(())
/// ```
pub fn forecast(book: &[u8], commands: usize) -> Result<Forecast, Fault> {
    let r = calls::forecast(book, commands as u64);
    if r.code != 0 {
        return Err(Fault::new(r.code, r.place, [NONE; POINTS_LEN], book));
    }
    Ok(Forecast {
        units: r.units,
        plan_bytes: size(r.plan_bytes),
        legs: size(r.legs),
    })
}
