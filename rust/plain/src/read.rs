//! Reading a book into table, slots and weights, and checking its items.

use crate::accept::judge;
use crate::sets::all;
use crate::slot::{self, Slot};
use crate::{Checking, Fault, Lent, Reading, ITEMS, SLOTS, TABLE, WEIGHT, WEIGHTS};

const DEVICE: u16 = 1;
pub(crate) const MOVE: u16 = 2;
pub(crate) const ITEM: u16 = 3;
pub(crate) const WEIGHTS_RECORD: u16 = 5;

/// Bytes of a device record and of a move record, headers included.
const DEVICE_SIZE: usize = 6;
const MOVE_SIZE: usize = 14;

/// A book that keeps the rules for its bytes: the device record, perhaps a
/// weights record, then from an offset `moves` move records, then `items` item
/// records, and nothing else.
pub(crate) struct Book {
    pub n: usize,
    pub m: usize,
    pub items: usize,
    moves_at: usize,
    moves: usize,
}

/// What a forecast takes of an item.
pub(crate) struct Item {
    pub k: u64,
    pub r: u64,
    pub psi: u64,
}

pub fn read(book: &[u8], table: &mut [u64], slots: &mut [u8], weights: &mut [u16]) -> Reading {
    let lent = &mut Lent {
        table,
        slots,
        weights,
    };
    answer(read_book(book, lent))
}

/// "checking a book is reading and 8"; 12 is "judged item by item beside 8"
pub fn check(book: &[u8], table: &mut [u64], slots: &mut [u8], weights: &mut [u16]) -> Checking {
    let lent = &mut Lent {
        table,
        slots,
        weights,
    };
    let mut units = 0;
    let Reading {
        code,
        place,
        n,
        m,
        items,
    } = answer(check_book(book, lent, &mut units));
    Checking {
        code,
        place,
        n,
        m,
        items,
        units,
    }
}

fn answer(result: Result<Book, Fault>) -> Reading {
    match result {
        Ok(book) => Reading {
            code: 0,
            place: 0,
            n: book.n as u64,
            m: book.m as u64,
            items: book.items as u64,
        },
        Err(Fault { code, place }) => Reading {
            code,
            place,
            n: 0,
            m: 0,
            items: 0,
        },
    }
}

fn read_book(book: &[u8], lent: &mut Lent) -> Result<Book, Fault> {
    if lent.table.len() < TABLE || lent.slots.len() < SLOTS || lent.weights.len() < WEIGHTS {
        return Err(Fault::new(1, 0));
    }
    // Nothing is written before the whole book is known to be good.
    let found = survey(book, |_| ())?;
    fill(book, &found, lent);
    Ok(found)
}

/// Adds the units that it makes.
pub(crate) fn check_book(book: &[u8], lent: &mut Lent, units: &mut u64) -> Result<Book, Fault> {
    let found = read_book(book, lent)?;
    let mut place = found.moves_at + MOVE_SIZE * found.moves;
    for slot in used(lent.slots, found.items) {
        judge(lent.table, found.m, slot, units).map_err(|code| Fault::new(code, place))?;
        place += slot::record_size(slot);
    }
    Ok(found)
}

/// The first `items` slots.
pub(crate) fn used(slots: &[u8], items: usize) -> &[Slot] {
    &slots.as_chunks().0[..items]
}

/// Judges every record: "2, 3, 7, 4, 5, 6, the first faulty record deciding";
/// 13 is "after 5 for that record". Passes each good item on as it stands.
pub(crate) fn survey(book: &[u8], mut pass: impl FnMut(Item)) -> Result<Book, Fault> {
    let (kind, body) = record(book, 0)?;
    if kind != DEVICE {
        return Err(Fault::new(3, 0));
    }
    let &[n, m] = body else {
        return Err(Fault::new(4, 0));
    };
    if !(1..=64).contains(&n) || !(1..=32).contains(&m) {
        return Err(Fault::new(5, 0));
    }

    let mut found = Book {
        n: n.into(),
        m: m.into(),
        items: 0,
        moves_at: DEVICE_SIZE,
        moves: 0,
    };
    let outside = !all(found.n);
    let mut next_entry = 0; // the lowest entry that the next move may have
    let mut at = DEVICE_SIZE;
    while at < book.len() {
        let (kind, body) = record(book, at)?;
        let fault = |code| Fault::new(code, at);
        match kind {
            // It "may stand straight after the device".
            WEIGHTS_RECORD if at == DEVICE_SIZE => {
                weights_body(body, found.m).map_err(fault)?;
                found.moves_at = at + 4 + body.len();
            }
            // "No move follows an item."
            MOVE if found.items == 0 => {
                let &[state, command, a, b, c, d, e, f, g, h] = body else {
                    return Err(fault(4));
                };
                let mask = u64::from_le_bytes([a, b, c, d, e, f, g, h]);
                if state >= n || command >= m || mask == 0 || mask & outside != 0 {
                    return Err(fault(5));
                }
                let entry = usize::from(state) * found.m + usize::from(command);
                if entry < next_entry {
                    return Err(fault(6));
                }
                next_entry = entry + 1;
                found.moves += 1;
            }
            ITEM => {
                if found.items == ITEMS {
                    return Err(fault(7));
                }
                pass(item_body(body, m, outside).map_err(fault)?);
                found.items += 1;
            }
            _ => return Err(fault(3)),
        }
        at += 4 + body.len();
    }
    Ok(found)
}

/// "m two-byte weights, each 1 to 1,000"
fn weights_body(body: &[u8], m: usize) -> Result<(), u64> {
    if body.len() != 2 * m {
        return Err(4);
    }
    let mut all_ones = true;
    for &weight in body.as_chunks().0 {
        let weight = u16::from_le_bytes(weight);
        if !WEIGHT.contains(&weight) {
            return Err(5);
        }
        all_ones &= weight == 1;
    }
    if all_ones {
        return Err(13);
    }
    Ok(())
}

/// "In an item a body under 2 bytes is 4, then k or r out of range is 5, then
/// length other than 18 + k + r is 4, then the rest."
fn item_body(body: &[u8], m: u8, outside: u64) -> Result<Item, u64> {
    let &[k, r, ref rest @ ..] = body else {
        return Err(4);
    };
    if !(1..=8).contains(&k) || r > 8 {
        return Err(5);
    }
    let (commands, masks) = rest.split_at_checked(usize::from(k + r)).ok_or(4u64)?;
    let (&[phi, psi], []) = masks.as_chunks() else {
        return Err(4);
    };
    let [phi, psi] = [phi, psi].map(u64::from_le_bytes);
    if (phi | psi) & outside != 0 || commands.iter().any(|&command| command >= m) {
        return Err(5);
    }
    Ok(Item {
        k: k.into(),
        r: r.into(),
        psi,
    })
}

/// The kind and body of the record at an offset, or 2 where it is cut off.
pub(crate) fn record(book: &[u8], at: usize) -> Result<(u16, &[u8]), Fault> {
    if let Some((&[l, ll, k, kk], rest)) = book[at..].split_first_chunk() {
        if let Some(body) = rest.get(..u16::from_le_bytes([l, ll]).into()) {
            return Ok((u16::from_le_bytes([k, kk]), body));
        }
    }
    Err(Fault::new(2, at))
}

/// Fills table, slots and weights from a book that `survey` has passed.
fn fill(book: &[u8], found: &Book, lent: &mut Lent) {
    let Lent {
        table,
        slots,
        weights,
    } = lent;
    let (start, rest) = book.split_at(found.moves_at);
    let (moves, mut items) = rest.split_at(MOVE_SIZE * found.moves);

    // "Without it every weight is 1." Where it is, a header of four bytes and
    // then the weights.
    weights[..found.m].fill(1);
    let record = start[DEVICE_SIZE..].as_chunks().0;
    for (to, &weight) in weights.iter_mut().zip(record.iter().skip(2)) {
        *to = u16::from_le_bytes(weight);
    }

    // "Pairs not written have no outcomes (entry 0)."
    table[..found.n * found.m].fill(0);
    for &[_, _, _, _, state, command, ref mask @ ..] in moves.as_chunks::<MOVE_SIZE>().0 {
        table[usize::from(state) * found.m + usize::from(command)] = u64::from_le_bytes(*mask);
    }

    for slot in &mut slots.as_chunks_mut::<{ slot::SIZE }>().0[..found.items] {
        let (k, r) = (usize::from(items[4]), usize::from(items[5]));
        let (body, rest) = items[6..].split_at(k + r + 16);
        *slot = [0; slot::SIZE];
        slot[0] = k as u8;
        slot[1] = r as u8;
        slot[2..2 + k].copy_from_slice(&body[..k]);
        slot[10..10 + r].copy_from_slice(&body[k..k + r]);
        slot[18..].copy_from_slice(&body[k + r..]);
        items = rest;
    }
}
