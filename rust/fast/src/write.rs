//! Writing a book from table, slots and weights.

use crate::item::{Item, SLOT};
use crate::{all, put, Fault, Writing, ITEMS, OUT, SLOTS, TABLE, WEIGHTS};

pub fn write(
    n: u64,
    m: u64,
    items: u64,
    table: &[u64],
    slots: &[u8],
    weights: &[u16],
    out: &mut [u8],
) -> Writing {
    let ((code, place), length) = match write_book([n, m, items], table, slots, weights, out) {
        Ok(length) => ((0, 0), length),
        Err(fault) => (fault, 0),
    };
    Writing {
        code,
        place: place as u64,
        length: length as u64,
    }
}

#[inline]
fn write_book(
    [n, m, items]: [u64; 3],
    table: &[u64],
    slots: &[u8],
    weights: &[u16],
    out: &mut [u8],
) -> Result<usize, Fault> {
    let short = (1, 0);
    let table = table.first_chunk::<TABLE>().ok_or(short)?;
    let slots = slots.first_chunk::<SLOTS>().ok_or(short)?;
    let weights = weights.first_chunk::<WEIGHTS>().ok_or(short)?;
    let out = out.first_chunk_mut::<OUT>().ok_or(short)?;
    if !(1..=64).contains(&n) || !(1..=32).contains(&m) {
        return Err((5, 0));
    }
    if items > ITEMS as u64 {
        return Err((7, 0));
    }
    let (n, m) = (n as usize, m as usize);
    let weights = &weights[..m];
    let table = &table[..n * m];
    let slots = &slots.as_chunks::<SLOT>().0[..items as usize];

    let wrong = |weight: &u16| weight.wrapping_sub(1) > 999;
    if let Some(command) = weights.iter().position(wrong) {
        return Err((5, command));
    }
    // All at once first; where one is wrong, which one.
    let outside = !all(n);
    if table.iter().fold(0, |all, mask| all | mask) & outside != 0 {
        let entry = table.iter().position(|mask| mask & outside != 0);
        return Err((5, entry.unwrap_or(0)));
    }
    let good = |slot| Item::of_slot(slot).is_some_and(|item| item.fits(m, outside));
    if let Some(number) = slots.iter().position(|slot| !good(slot)) {
        return Err((5, number));
    }

    out[..6].copy_from_slice(&[2, 0, 1, 0, n as u8, m as u8]);
    let mut at = 6;
    if weights.iter().any(|&weight| weight != 1) {
        out[6..10].copy_from_slice(&[2 * m as u8, 0, 5, 0]);
        for (to, weight) in out[10..].as_chunks_mut().0.iter_mut().zip(weights) {
            *to = weight.to_le_bytes();
        }
        at = 10 + 2 * m;
    }

    let mut records = out[at..].as_chunks_mut::<14>().0.iter_mut();
    for (state, row) in (0..).zip(table.chunks_exact(m)) {
        // Header, state and command.
        let mut head = 0x0002_000a | state << 32;
        for &mask in row {
            if mask != 0 {
                let Some(record) = records.next() else {
                    break;
                };
                put(record, 0, head);
                put(record, 6, mask);
                at += 14;
            }
            head += 1 << 40;
        }
    }

    for slot in slots {
        let item = Item::of_good_slot(slot);
        item.put_record(&mut out[at..at + item.size()]);
        at += item.size();
    }
    Ok(at)
}
