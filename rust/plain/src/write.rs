//! Writing a book from table, slots and weights.

use crate::read::used;
use crate::sets::all;
use crate::slot::{self, Slot};
use crate::{Fault, Writing, ITEMS, OUT, SLOTS, TABLE, WEIGHT, WEIGHTS};

pub fn write(
    n: u64,
    m: u64,
    items: u64,
    table: &[u64],
    slots: &[u8],
    weights: &[u16],
    out: &mut [u8],
) -> Writing {
    match write_book(n, m, items, table, slots, weights, out) {
        Ok(length) => Writing {
            code: 0,
            place: 0,
            length: length as u64,
        },
        Err(Fault { code, place }) => Writing {
            code,
            place,
            length: 0,
        },
    }
}

fn write_book(
    n: u64,
    m: u64,
    items: u64,
    table: &[u64],
    slots: &[u8],
    weights: &[u16],
    out: &mut [u8],
) -> Result<usize, Fault> {
    if table.len() < TABLE || slots.len() < SLOTS || weights.len() < WEIGHTS || out.len() < OUT {
        return Err(Fault::new(1, 0));
    }
    if !(1..=64).contains(&n) || !(1..=32).contains(&m) {
        return Err(Fault::new(5, 0));
    }
    if items > ITEMS as u64 {
        return Err(Fault::new(7, 0));
    }
    let (n, m) = (n as usize, m as usize);
    let table = &table[..n * m];
    let items = used(slots, items as usize);
    let weights = &weights[..m];
    if let Some(command) = weights.iter().position(|weight| !WEIGHT.contains(weight)) {
        return Err(Fault::new(5, command));
    }
    let outside = !all(n);
    if let Some(entry) = table.iter().position(|mask| mask & outside != 0) {
        return Err(Fault::new(5, entry));
    }
    if let Some(number) = items.iter().position(|slot| !allowed(slot, m, outside)) {
        return Err(Fault::new(5, number));
    }

    let mut book = Cursor { out, at: 0 };
    book.put(&[2, 0, 1, 0, n as u8, m as u8]);
    // It "leaves the record out where all m are 1".
    if weights.iter().any(|&weight| weight != 1) {
        book.put(&[2 * m as u8, 0, 5, 0]);
        for weight in weights {
            book.put(&weight.to_le_bytes());
        }
    }
    for (state, row) in (0..).zip(table.chunks_exact(m)) {
        for (command, &mask) in (0..).zip(row) {
            if mask != 0 {
                let [a, b, c, d, e, f, g, h] = mask.to_le_bytes();
                book.put(&[10, 0, 2, 0, state, command, a, b, c, d, e, f, g, h]);
            }
        }
    }
    for slot in items {
        let (k, r) = (slot[0], slot[1]);
        book.put(&[18 + k + r, 0, 3, 0, k, r]);
        book.put(slot::forward(slot));
        book.put(slot::reverse(slot));
        book.put(&slot[18..]);
    }
    Ok(book.at)
}

/// Whether the fields keep an item's limits and unused command bytes are zero.
fn allowed(slot: &Slot, m: usize, outside: u64) -> bool {
    let commands_allowed = |bytes: &[u8], count| {
        let (used, unused) = bytes.split_at(count);
        used.iter().all(|&command| usize::from(command) < m) && unused.iter().all(|&b| b == 0)
    };
    let (k, r) = (slot::k(slot), slot::r(slot));
    (1..=8).contains(&k)
        && r <= 8
        && commands_allowed(&slot[2..10], k)
        && commands_allowed(&slot[10..18], r)
        && (slot::phi(slot) | slot::psi(slot)) & outside == 0
}

struct Cursor<'a> {
    out: &'a mut [u8],
    at: usize,
}

impl Cursor<'_> {
    fn put(&mut self, bytes: &[u8]) {
        self.out[self.at..self.at + bytes.len()].copy_from_slice(bytes);
        self.at += bytes.len();
    }
}
