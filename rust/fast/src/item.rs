//! An item, as its record in a book and as a slot.

use crate::{put, word};

/// Bytes of a slot: k, r, 8 forward bytes, 8 reverse bytes, phi, psi.
pub(crate) const SLOT: usize = 34;

pub(crate) type Slot = [u8; SLOT];

/// The header of a record without commands: its length, and kind 3.
const HEADER: u32 = 3 << 16 | 18;
/// The first so many bytes of a word.
const FIRST: [u64; 9] = {
    let mut first = [u64::MAX; 9];
    let mut count = 0;
    while count < 8 {
        first[count] = (1 << (8 * count)) - 1;
        count += 1;
    }
    first
};
/// A 1 in each byte, and the highest bit of each.
const ONES: u64 = u64::MAX / 255;
const HIGH: u64 = ONES << 7;

/// The commands are words, the first command lowest; unused bytes are zero.
#[derive(Clone, Copy)]
pub(crate) struct Item {
    pub k: usize,
    pub r: usize,
    pub forward: u64,
    pub reverse: u64,
    pub phi: u64,
    pub psi: u64,
}

impl Item {
    /// The item of the record that these bytes begin with. None where they begin with no record of
    /// kind 3 or k, r or the length is wrong.
    #[inline]
    pub fn first_of(bytes: &[u8]) -> Option<Item> {
        let &[a, b, c, d, k, r] = bytes.first_chunk()?;
        let (header, count) = (
            u32::from_le_bytes([a, b, c, d]),
            u32::from(k) + u32::from(r),
        );
        if k.wrapping_sub(1) > 7 || r > 8 || header != HEADER + count {
            return None;
        }
        let (k, r) = (usize::from(k), usize::from(r));
        let record = bytes.get(..22 + k + r)?;
        Some(Item {
            k,
            r,
            forward: word(record, 6) & FIRST[k],
            reverse: word(record, 6 + k) & FIRST[r],
            phi: word(record, 6 + k + r),
            psi: word(record, 14 + k + r),
        })
    }

    #[inline]
    pub fn forward(&self) -> Commands {
        Commands {
            word: self.forward,
            left: self.k,
        }
    }

    #[inline]
    pub fn reverse(&self) -> Commands {
        Commands {
            word: self.reverse,
            left: self.r,
        }
    }

    /// Bytes of its record.
    #[inline]
    pub fn size(&self) -> usize {
        22 + self.k + self.r
    }

    /// Whether its commands are below m and its masks have no bit of `outside`.
    #[inline]
    pub fn fits(&self, m: usize, outside: u64) -> bool {
        // A byte below 128 goes to 128 or above exactly where it is m or above.
        let up = ONES * (128 - m as u64);
        let raised = |commands| ((commands & !HIGH) + up) | commands;
        (raised(self.forward) | raised(self.reverse)) & HIGH == 0
            && (self.phi | self.psi) & outside == 0
    }

    /// What a slot holds, when k and r are in range and unused bytes are zero.
    #[inline]
    pub fn of_slot(slot: &Slot) -> Option<Item> {
        let item = Item::of_good_slot(slot);
        let good = (1..=8).contains(&item.k)
            && item.r <= 8
            && item.forward & !FIRST[item.k] == 0
            && item.reverse & !FIRST[item.r] == 0;
        good.then_some(item)
    }

    #[inline]
    pub fn of_good_slot(slot: &Slot) -> Item {
        Item {
            k: slot[0].into(),
            r: slot[1].into(),
            forward: word(slot, 2),
            reverse: word(slot, 10),
            phi: word(slot, 18),
            psi: word(slot, 26),
        }
    }

    #[inline]
    pub fn put_slot(&self, slot: &mut Slot) {
        slot[0] = self.k as u8;
        slot[1] = self.r as u8;
        put(slot, 2, self.forward);
        put(slot, 10, self.reverse);
        put(slot, 18, self.phi);
        put(slot, 26, self.psi);
    }

    /// Puts its record, of `size` bytes.
    #[inline]
    pub fn put_record(&self, record: &mut [u8]) {
        let (k, r) = (self.k, self.r);
        let (count, bytes) = ((k + r) as u64, k as u64 | (r as u64) << 8);
        let head = u64::from(HEADER) + count + (bytes << 32);
        // Each word overwrites what the one before put past its own bytes.
        put(record, 0, head);
        put(record, 6, self.forward);
        put(record, 6 + k, self.reverse);
        put(record, 6 + k + r, self.phi);
        put(record, 14 + k + r, self.psi);
    }
}

/// The first commands of a word. All are below 32.
#[derive(Clone, Copy)]
pub(crate) struct Commands {
    word: u64,
    left: usize,
}

impl Iterator for Commands {
    type Item = usize;

    #[inline]
    fn next(&mut self) -> Option<usize> {
        self.left = self.left.checked_sub(1)?;
        let command = self.word as usize % 32;
        self.word >>= 8;
        Some(command)
    }

    #[inline]
    fn size_hint(&self) -> (usize, Option<usize>) {
        (self.left, Some(self.left))
    }
}

impl ExactSizeIterator for Commands {}
