//! Checking: reading, and then the items one by one.

use crate::item::{Item, Slot, SLOT};
use crate::numbers::Numbers;
use crate::read::{Book, Lent};
use crate::step::{Column, Entries, Step};
use crate::{Checking, Fault, TABLE};

pub fn check(book: &[u8], table: &mut [u64], slots: &mut [u8], weights: &mut [u16]) -> Checking {
    let mut units = 0;
    let found = Lent::new(table, slots, weights)
        .ok_or((1, 0))
        .and_then(|mut lent| check_book(book, &mut lent, &mut units));
    let ((code, place), [n, m, items]) = match found {
        Ok(found) => ((0, 0), [found.n, found.m, found.items]),
        Err(fault) => (fault, [0; 3]),
    };
    Checking {
        code,
        place: place as u64,
        n: n as u64,
        m: m as u64,
        items: items as u64,
        units: units as u64,
    }
}

/// Adds the units that it makes.
pub(crate) fn check_book<'a>(
    book: &'a [u8],
    lent: &mut Lent,
    units: &mut usize,
) -> Result<Book<'a>, Fault> {
    let found = Book::of(book, |_| ())?;
    found.fill(lent);
    let items = &lent.slots.as_chunks::<SLOT>().0[..found.items];
    let judged = if found.n * found.items < 64 {
        judge_few(lent.table, &found, items, units)
    } else {
        judge_many(lent.table, &found, items, units)
    };
    judged.map(|()| found)
}

/// Judges the items by the table as it is.
fn judge_few(
    table: &[u64; TABLE],
    book: &Book,
    items: &[Slot],
    units: &mut usize,
) -> Result<(), Fault> {
    let mut place = book.items_at;
    for slot in items {
        let item = Item::of_good_slot(slot);
        let entries = |command| Entries {
            table,
            m: book.m,
            command,
        };
        let (forward, reverse) = (item.forward().map(entries), item.reverse().map(entries));
        judge(&item, forward, reverse, item.psi, false, units).map_err(|code| (code, place))?;
        place += item.size();
    }
    Ok(())
}

/// Judges the items by a copy of the table with a column for each command.
#[inline(never)] // for its large frame
fn judge_many(
    table: &[u64; TABLE],
    book: &Book,
    items: &[Slot],
    units: &mut usize,
) -> Result<(), Fault> {
    let mut columns = [Column::NONE; 32];
    let mut numbers = Numbers::NONE;
    let mut built = 0u32;
    let mut place = book.items_at;
    for slot in items {
        let item = Item::of_good_slot(slot);
        for command in item.forward().chain(item.reverse()) {
            if built >> command & 1 == 0 {
                built |= 1 << command;
                let (column, next) = (&mut columns[command], &mut numbers.next[command]);
                column.build(next, table, command, book);
            }
        }
        let (left, effective) = numbers.judge(&item);
        *units += (item.psi ^ left).count_ones() as usize * (item.k + item.r);
        let (mut forward, mut reverse) = ([&columns[0]; 8], [&columns[0]; 8]);
        if left != 0 {
            for (to, command) in forward.iter_mut().zip(item.forward()) {
                *to = &columns[command];
            }
            for (to, command) in reverse.iter_mut().zip(item.reverse()) {
                *to = &columns[command];
            }
        }
        let forward = forward[..item.k].iter().copied();
        let reverse = reverse[..item.r].iter().copied();
        judge(&item, forward, reverse, left, effective, units).map_err(|code| (code, place))?;
        place += item.size();
    }
    Ok(())
}

/// Judges an item from the starts that are left on, where `effective` is of those before. Gives 8 or
/// 12 where it is wrong, and adds the units that it makes.
#[inline(always)]
fn judge<S: Step>(
    item: &Item,
    forward: impl Iterator<Item = S> + Clone,
    reverse: impl ExactSizeIterator<Item = S> + Clone,
    left: u64,
    effective: bool,
    units: &mut usize,
) -> Result<(), u64> {
    let (mut left, mut effective, mut starts) = (left, effective, 0);
    let length = item.k + item.r;
    while left != 0 {
        let start = left & left.wrapping_neg();
        let (mut set, mut steps) = (start, forward.clone());
        if let Some(first) = steps.next() {
            set = first.after_one(left.trailing_zeros());
        }
        for step in steps {
            set = step.after(set);
        }
        set &= item.phi;
        let has_end = set != 0;
        let mut steps = reverse.clone();
        let stuck = loop {
            let Some(step) = steps.next() else {
                break false;
            };
            let Some(after) = step.after_each(set) else {
                break true;
            };
            set = after;
        };
        starts += 1;
        if stuck || has_end && set != start {
            *units += starts * length - steps.len();
            return Err(8);
        }
        effective |= has_end;
        left &= left - 1;
    }
    *units += starts * length;
    if effective {
        Ok(())
    } else {
        Err(12)
    }
}
