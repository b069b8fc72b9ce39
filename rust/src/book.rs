use core::ops::Deref;
use std::vec;
use std::vec::Vec;

use crate::calls::{self, Reading};
use crate::{find, plan, size, Fault, Item, Plan, Reverse, WriteFault, NONE};

/// A book that was read: what the device's commands do in its states, what they weigh, and the
/// items. Whether these are accepted is not known: see [`CheckedBook`].
#[derive(Clone, Debug, PartialEq, Eq)]
pub struct Book {
    bytes: Vec<u8>,
    n: usize,
    m: usize,
    items: usize,
    table: Vec<u64>,
    slots: Vec<u8>,
    weights: Vec<u16>,
}

impl Book {
    /// Reads a book. Its items are not judged.
    ///
    /// # Errors
    /// Codes 2 to 7 and 13: the bytes are no book.
    pub fn read(bytes: &[u8]) -> Result<Book, Fault> {
        Book::by(calls::read, bytes)
    }

    /// Reads a book and checks that every item is accepted: from every end in phi that its forward
    /// commands can lead to from a start in psi, the reverse ones lead back to that start, and there
    /// is such a start with such an end.
    ///
    /// # Errors
    /// Codes 2 to 7 and 13: the bytes are no book. Codes 8 and 12: an item is not accepted.
    ///
    /// ```
    /// use rollback::{Book, Fault};
    ///
    /// let fault = Book::check(&[]).unwrap_err();
    /// assert_eq!(fault.to_string(), "record 0 (at 0): the book ends before this record does (code 2)");
    /// let book = Book::check(&[2, 0, 1, 0, 3, 2])?;
    /// assert_eq!((book.states(), book.commands(), book.items().count()), (3, 2, 0));
    /// assert_eq!(book.units(), 0); // there was no item to judge
    /// # Ok::<(), Fault>(())
    /// ```
    pub fn check(bytes: &[u8]) -> Result<CheckedBook, Fault> {
        let mut units = 0;
        let call = |bytes: &[u8], table: &mut [u64], slots: &mut [u8], weights: &mut [u16]| {
            let r = calls::check(bytes, table, slots, weights);
            units = r.units;
            Reading {
                code: r.code,
                place: r.place,
                n: r.n,
                m: r.m,
                items: r.items,
            }
        };
        let book = Book::by(call, bytes)?;
        Ok(CheckedBook { book, units })
    }

    /// The book by reading or checking.
    fn by<Call>(call: Call, bytes: &[u8]) -> Result<Book, Fault>
    where
        Call: FnOnce(&[u8], &mut [u64], &mut [u8], &mut [u16]) -> Reading,
    {
        let mut table = vec![0; calls::TABLE_LEN];
        let mut slots = vec![0; calls::SLOTS_LEN];
        let mut weights = vec![0; calls::WEIGHTS_LEN];
        let r = call(bytes, &mut table, &mut slots, &mut weights);
        if r.code != 0 {
            return Err(Fault::new(
                r.code,
                r.place,
                [NONE; calls::POINTS_LEN],
                bytes,
            ));
        }
        weights.truncate(size(r.m));
        Ok(Book {
            bytes: bytes.to_vec(),
            n: size(r.n),
            m: size(r.m),
            items: size(r.items),
            table,
            slots,
            weights,
        })
    }

    /// The number of states.
    #[must_use]
    pub fn states(&self) -> usize {
        self.n
    }

    /// The number of commands.
    #[must_use]
    pub fn commands(&self) -> usize {
        self.m
    }

    /// Where a command can lead from a state, as a set; 0 where it can't be carried out. None for a
    /// state or command that the device doesn't have.
    #[must_use]
    pub fn outcomes(&self, state: usize, command: usize) -> Option<u64> {
        if state < self.n && command < self.m {
            self.table.get(state * self.m + command).copied()
        } else {
            None
        }
    }

    /// The weight of each command, 1 to 1,000; all 1 where the book has no record of them.
    #[must_use]
    pub fn weights(&self) -> &[u16] {
        &self.weights
    }

    /// The items, in the book's order.
    pub fn items(&self) -> impl ExactSizeIterator<Item = Item<'_>> {
        self.slots
            .chunks_exact(calls::SLOT_LEN)
            .take(self.items)
            .map(Item::of)
    }

    /// The bytes that were read.
    #[must_use]
    pub fn bytes(&self) -> &[u8] {
        &self.bytes
    }
}

/// A book in which every item is accepted. Only [`Book::check`] makes one; it is used as a [`Book`].
#[derive(Clone, Debug, PartialEq, Eq)]
pub struct CheckedBook {
    book: Book,
    units: u64,
}

impl CheckedBook {
    /// The units that checking made, as [`forecast`](crate::forecast) gives them: one is one command
    /// applied to one set of states.
    #[must_use]
    pub fn units(&self) -> u64 {
        self.units
    }

    /// The plan that undoes a run, as [`plan`] gives it.
    ///
    /// # Errors
    /// Codes 9 to 11: the bytes are no run of this device, or nothing undoes it.
    pub fn plan(&self, run: &[u8]) -> Result<Plan, Fault> {
        plan(self.bytes(), run)
    }

    /// The reverse for an item with these forward commands and masks, as [`find`] gives it.
    ///
    /// # Errors
    /// Code 14: no item may hold them. Code 15: no reverse of at most 3 commands makes an accepted
    /// item.
    pub fn find<'a>(&self, forward: &'a [u8], phi: u64, psi: u64) -> Result<Reverse<'a>, Fault> {
        find(self.bytes(), forward, phi, psi)
    }
}

impl Deref for CheckedBook {
    type Target = Book;

    fn deref(&self) -> &Book {
        &self.book
    }
}

/// Writes a book: n states, m commands, the outcomes of state s and command c at s × m + c, items,
/// the weight of command c at c.
///
/// Outcomes not given are empty sets, those from n × m on are ignored; weights not given are 1,
/// those from m on are ignored. Whether items are accepted is not judged: see [`Book::check`].
///
/// # Errors
/// n, m, a weight, an outcome or an item is outside the limits of a book.
///
/// ```
/// use rollback::{Book, Item, WriteFault};
///
/// let item = Item { forward: &[0], reverse: &[], phi: 1, psi: 1 };
/// let book = Book::read(&rollback::write(1, 2, &[1], &[item], &[40])?)?;
/// assert_eq!(book.items().next(), Some(item));
/// assert_eq!(book.weights(), [40, 1]);
/// let fault = WriteFault::Outcomes { state: 0, command: 0 };
/// assert_eq!(rollback::write(1, 1, &[2], &[], &[]), Err(fault));
/// # Ok::<(), Box<dyn std::error::Error>>(())
/// ```
pub fn write(
    n: usize,
    m: usize,
    outcomes: &[u64],
    items: &[Item],
    weights: &[u16],
) -> Result<Vec<u8>, WriteFault> {
    let mut table = vec![0; calls::TABLE_LEN];
    let mut slots = vec![0; calls::SLOTS_LEN];
    let mut all_weights = vec![1; calls::WEIGHTS_LEN];
    let mut out = vec![0; calls::OUT_LEN];
    for (to, from) in table.iter_mut().zip(outcomes) {
        *to = *from;
    }
    for (to, from) in slots.chunks_exact_mut(calls::SLOT_LEN).zip(items) {
        to.copy_from_slice(&from.slot());
    }
    for (to, from) in all_weights.iter_mut().zip(weights) {
        *to = *from;
    }
    let (n, m, items) = (n as u64, m as u64, items.len() as u64);
    let r = calls::write(n, m, items, &table, &slots, &all_weights, &mut out);
    if r.code != 0 {
        return Err(WriteFault::new(r.code, r.place, n, m, &table, &all_weights));
    }
    out.truncate(size(r.length));
    Ok(out)
}
