//! How much checking a book will take.

use crate::read::Book;
use crate::{Forecasted, RUN};

pub fn forecast(book: &[u8], i: u64) -> Forecasted {
    let (mut units, mut most) = (0, 0);
    let found = Book::of(book, |item| {
        units += u64::from(item.psi.count_ones()) * (item.k + item.r) as u64;
        most = item.r.max(most);
    });
    let (code, place) = match found {
        Err(fault) => fault,
        Ok(_) if i > RUN as u64 => (9, 0),
        Ok(_) => (0, 0),
    };
    let [units, plan_bytes, legs] = match code {
        0 => [units, i * most as u64, i],
        _ => [0; 3],
    };
    Forecasted {
        code,
        place: place as u64,
        units,
        plan_bytes,
        legs,
    }
}
