//! How much checking a book will take.

use crate::read::survey;
use crate::{Fault, Forecasted, RUN};

/// For a well-formed book, accepted or not: the most units that its check
/// makes, and "plan bytes and legs that no run of i commands exceeds".
pub fn forecast(book: &[u8], i: u64) -> Forecasted {
    match forecast_book(book, i) {
        Ok((units, plan_bytes)) => Forecasted {
            code: 0,
            place: 0,
            units,
            plan_bytes,
            legs: i,
        },
        Err(Fault { code, place }) => Forecasted {
            code,
            place,
            units: 0,
            plan_bytes: 0,
            legs: 0,
        },
    }
}

/// The units and the plan bytes.
fn forecast_book(book: &[u8], i: u64) -> Result<(u64, u64), Fault> {
    let (mut units, mut largest_r) = (0, 0);
    survey(book, |item| {
        // "the sum over items of (states in psi) × (k + r)"
        units += u64::from(item.psi.count_ones()) * (item.k + item.r);
        largest_r = item.r.max(largest_r);
    })?;
    // "an i above 32 is 9, after reading's codes"
    if i > RUN as u64 {
        return Err(Fault::new(9, 0));
    }
    // "i × the largest r (0 without items)"
    Ok((units, i * largest_r))
}
