//! Reading a book into table, slots and weights.

use crate::item::{Item, SLOT};
use crate::{all, word, Fault, Reading, ITEMS, SLOTS, TABLE, WEIGHTS};

/// Bytes of a move.
const MOVE: usize = 14;

/// A book that keeps the rules for its bytes.
pub(crate) struct Book<'a> {
    pub n: usize,
    pub m: usize,
    /// Empty where the book has no record of them.
    weights: &'a [[u8; 2]],
    moves: &'a [[u8; MOVE]],
    /// How many items, their records, and where these begin.
    pub items: usize,
    records: &'a [u8],
    pub items_at: usize,
}

/// The buffers that reading fills, of at least the stated lengths.
pub(crate) struct Lent<'a> {
    pub table: &'a mut [u64; TABLE],
    pub slots: &'a mut [u8; SLOTS],
    pub weights: &'a mut [u16; WEIGHTS],
}

impl<'a> Lent<'a> {
    /// None where one is shorter than stated.
    #[inline]
    pub fn new(table: &'a mut [u64], slots: &'a mut [u8], weights: &'a mut [u16]) -> Option<Self> {
        Some(Lent {
            table: table.first_chunk_mut()?,
            slots: slots.first_chunk_mut()?,
            weights: weights.first_chunk_mut()?,
        })
    }
}

pub fn read(book: &[u8], table: &mut [u64], slots: &mut [u8], weights: &mut [u16]) -> Reading {
    let found = Lent::new(table, slots, weights)
        .ok_or((1, 0))
        .and_then(|mut lent| {
            let found = Book::of(book, |_| ())?;
            found.fill(&mut lent);
            Ok([found.n, found.m, found.items])
        });
    let ((code, place), [n, m, items]) = match found {
        Ok(found) => ((0, 0), found),
        Err(fault) => (fault, [0; 3]),
    };
    Reading {
        code,
        place: place as u64,
        n: n as u64,
        m: m as u64,
        items: items as u64,
    }
}

impl<'a> Book<'a> {
    /// Judges every record and passes each good item on. Each part goes as far as its records are
    /// good; the record after the last good one is looked at again for its code.
    #[inline]
    pub fn of(book: &'a [u8], mut pass: impl FnMut(&Item)) -> Result<Self, Fault> {
        let Some(&[2, 0, 1, 0, n @ 1..=64, m @ 1..=32]) = book.first_chunk() else {
            return Err((device_code(book), 0));
        };
        let (n, m) = (usize::from(n), usize::from(m));
        let mut at = 6;
        let mut weights: &[[u8; 2]] = &[];
        if let Some(&[_, _, 5, 0]) = book[at..].first_chunk() {
            weights = weights_of(&book[at..], m).map_err(|code| (code, at))?;
            at += 4 + 2 * m;
        }

        let (moves, _) = book[at..].as_chunks::<MOVE>();
        let moves = &moves[..good_moves(moves, n, m)];
        at += MOVE * moves.len();

        let items_at = at;
        let (outside, mut items, mut rest) = (!all(n), 0, &book[at..]);
        while items < ITEMS {
            let Some(item) = Item::first_of(rest).filter(|item| item.fits(m, outside)) else {
                break;
            };
            pass(&item);
            items += 1;
            rest = &rest[item.size()..];
        }
        if !rest.is_empty() {
            return Err((code(rest, n, m, items), book.len() - rest.len()));
        }
        Ok(Book {
            n,
            m,
            weights,
            moves,
            items,
            records: &book[items_at..],
            items_at,
        })
    }

    /// Fills table, slots and weights.
    pub fn fill(&self, lent: &mut Lent) {
        let weights = &mut lent.weights[..self.m];
        if self.weights.is_empty() {
            weights.fill(1);
        }
        for (to, &weight) in weights.iter_mut().zip(self.weights) {
            *to = u16::from_le_bytes(weight);
        }

        let table = &mut lent.table[..self.n * self.m];
        if self.moves.len() == table.len() {
            // No pair is left out, so they stand as the entries do.
            for (entry, bytes) in table.iter_mut().zip(self.moves) {
                *entry = word(bytes, 6);
            }
        } else {
            table.fill(0);
            for bytes in self.moves {
                let (state, command) = (usize::from(bytes[4]), usize::from(bytes[5]));
                table[state * self.m + command] = word(bytes, 6);
            }
        }

        let mut rest = self.records;
        for slot in &mut lent.slots.as_chunks_mut::<SLOT>().0[..self.items] {
            let Some(item) = Item::first_of(rest) else {
                break;
            };
            item.put_slot(slot);
            rest = &rest[item.size()..];
        }
    }
}

/// How many moves stand here, each good and above the one before.
#[inline]
fn good_moves(moves: &[[u8; MOVE]], n: usize, m: usize) -> usize {
    // Not zero and no bit outside.
    let good_mask = |bytes| word(bytes, 6).wrapping_sub(1) < all(n);
    // First the states that have a move for each command, which doesn't pay in a short book.
    let (mut full, mut left) = (0, moves);
    let most = if moves.len() < 64 { 0 } else { n as u64 };
    while let Some((row, rest)) = left.split_at_checked(m).filter(|_| full < most) {
        let mut head = 0x0002_000a | full << 32;
        let (mut other, mut bad) = (0, 0);
        for bytes in row {
            other |= word(bytes, 0) ^ head;
            bad += u64::from(!good_mask(bytes));
            head += 1 << 40;
        }
        if other << 16 != 0 || bad != 0 {
            break;
        }
        (full, left) = (full + 1, rest);
    }
    // Then header, state and command as one big-endian number: between these bounds the header is a
    // move's and the state below n.
    let head = |state: u64| 0x0a00_0200_0000 | state << 8;
    let (mut last, end, m) = (head(full) - 1, head(n as u64), m as u8);
    while let Some((bytes, rest)) = left.split_first() {
        let head = word(bytes, 0).swap_bytes() >> 16;
        if head <= last || head >= end || head as u8 >= m || !good_mask(bytes) {
            break;
        }
        (last, left) = (head, rest);
    }
    moves.len() - left.len()
}

/// The code of a first record that is no good device.
#[cold]
fn device_code(book: &[u8]) -> u64 {
    match record(book) {
        None => 2,
        Some((1, body)) => 4 + u64::from(body.len() == 2),
        Some(_) => 3,
    }
}

/// The weights of the second record, which is of kind 5, or its code.
fn weights_of(bytes: &[u8], m: usize) -> Result<&[[u8; 2]], u64> {
    let (_, body) = record(bytes).ok_or(2u64)?;
    let (weights, rest) = body.as_chunks::<2>();
    if weights.len() != m || !rest.is_empty() {
        return Err(4);
    }
    let (mut too_high, mut other) = (false, 0);
    for &weight in weights {
        let less = u16::from_le_bytes(weight).wrapping_sub(1);
        too_high |= less > 999;
        other |= less;
    }
    match (too_high, other) {
        (true, _) => Err(5),
        (_, 0) => Err(13),
        _ => Ok(weights),
    }
}

/// The code of a faulty record past the device: these bytes begin with it, after so many items. A
/// record of kind 5 here is not the second.
#[cold]
fn code(bytes: &[u8], n: usize, m: usize, items: usize) -> u64 {
    match record(bytes) {
        None => 2,
        Some((2, body)) if items == 0 => match *body {
            [state, command, ref mask @ ..] if mask.len() == 8 => {
                let good_mask = word(mask, 0).wrapping_sub(1) < all(n);
                let good = usize::from(state) < n && usize::from(command) < m && good_mask;
                5 + u64::from(good)
            }
            _ => 4,
        },
        Some((3, _)) if items == ITEMS => 7,
        Some((3, body)) => match *body {
            [1..=8, 0..=8, ..] => 4 + u64::from(Item::first_of(bytes).is_some()),
            [_, _, ..] => 5,
            _ => 4,
        },
        Some(_) => 3,
    }
}

/// Kind and body of the record that these bytes begin with. None where it is cut off.
fn record(bytes: &[u8]) -> Option<(u16, &[u8])> {
    let (&[a, b, c, d], rest) = bytes.split_first_chunk()?;
    let body = rest.get(..u16::from_le_bytes([a, b]).into())?;
    Some((u16::from_le_bytes([c, d]), body))
}
