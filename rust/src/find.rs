use core::fmt;

use crate::calls::{self, FOUND_LEN, POINTS_LEN, TABLE_LEN};
use crate::lines::Row;
use crate::{size, Fault, Item, NONE};

/// The reverse that was found for an item: at most 3 commands, perhaps none. Printed: `8 1 9`, or
/// `nothing`.
#[derive(Clone, Copy, Debug, PartialEq, Eq)]
pub struct Reverse<'a> {
    forward: &'a [u8],
    phi: u64,
    psi: u64,
    commands: [u8; FOUND_LEN],
    count: usize,
}

impl Reverse<'_> {
    /// The commands to send back, in order.
    #[must_use]
    pub fn commands(&self) -> &[u8] {
        &self.commands[..self.count]
    }

    /// The item: the forward commands and masks that were given, and these commands as its reverse. It
    /// is accepted in every book of that device.
    #[must_use]
    pub fn item(&self) -> Item<'_> {
        Item {
            forward: self.forward,
            reverse: self.commands(),
            phi: self.phi,
            psi: self.psi,
        }
    }
}

impl fmt::Display for Reverse<'_> {
    fn fmt(&self, f: &mut fmt::Formatter<'_>) -> fmt::Result {
        Row(self.commands()).fmt(f)
    }
}

/// Checks a book and finds the reverse for an item with these forward commands, phi and psi: the
/// shortest row of at most 3 commands, or of none, that makes an accepted item; among equals, the one
/// with the lower command at the first difference. Weights don't count, nor whether the book has room
/// for another item. Where nothing can be allocated see [`find_in`].
///
/// # Errors
/// Codes 2 to 8, 12 and 13: the book is refused. Code 14: no item may hold these forward commands or
/// masks. Code 15: there is no such row.
///
/// ```
/// use rollback::{Book, Fault};
///
/// // A switch: command 0 turns it off, command 1 on. What undoes "on", if it was off before?
/// let outcomes = [0b01, 0b10, 0b01, 0b10];
/// let book = rollback::write(2, 2, &outcomes, &[], &[])?;
/// let found = rollback::find(&book, &[1], 0b11, 0b01)?;
/// assert_eq!(found.commands(), [0]);
/// assert_eq!(found.to_string(), "0");
///
/// // With what was found the item is complete, and the book that has it is accepted.
/// let book = Book::check(&rollback::write(2, 2, &outcomes, &[found.item()], &[])?)?;
/// assert_eq!(book.items().next(), Some(found.item()));
///
/// // If it was on before nothing need be sent; if that is not known, nothing helps.
/// assert_eq!(book.find(&[1], 0b11, 0b10)?.to_string(), "nothing");
/// assert_eq!(book.find(&[1], 0b11, 0b11), Err(Fault::NoReverse));
/// assert_eq!(book.find(&[2], 0b11, 0b11), Err(Fault::ItemFields)); // there is no command 2
/// # Ok::<(), Box<dyn std::error::Error>>(())
/// ```
#[cfg(feature = "std")]
pub fn find<'a>(book: &[u8], forward: &'a [u8], phi: u64, psi: u64) -> Result<Reverse<'a>, Fault> {
    by(book, forward, phi, psi, &mut std::vec![0; TABLE_LEN])
}

/// The reverse that `find` gives, with a lent table in place of an allocated one. Where the book is
/// refused with 2 to 7 or 13 the table stays as it was; else its entries below n × m hold the device's
/// moves, also on a fault.
///
/// # Errors
/// Codes 2 to 8, 12 and 13: the book is refused. Code 14: no item may hold these forward commands or
/// masks. Code 15: no reverse of at most 3 commands makes an accepted item.
///
/// ```
/// // Two states and one command, which leads from each to the other: sent again, it undoes itself.
/// let book = rollback::write(2, 1, &[0b10, 0b01], &[], &[])?;
/// let mut table = [0; rollback::calls::TABLE_LEN];
/// let found = rollback::find_in(&book, &[0], 0b11, 0b11, &mut table)?;
/// assert_eq!(found.commands(), [0]);
/// assert_eq!(table[..2], [0b10, 0b01]);
/// assert_eq!(rollback::find(&book, &[0], 0b11, 0b11)?, found);
/// # Ok::<(), Box<dyn std::error::Error>>(())
/// ```
pub fn find_in<'a>(
    book: &[u8],
    forward: &'a [u8],
    phi: u64,
    psi: u64,
    table: &mut [u64; TABLE_LEN],
) -> Result<Reverse<'a>, Fault> {
    by(book, forward, phi, psi, table)
}

fn by<'a>(
    book: &[u8],
    forward: &'a [u8],
    phi: u64,
    psi: u64,
    table: &mut [u64],
) -> Result<Reverse<'a>, Fault> {
    let r = calls::find(book, forward, phi, psi, table);
    if r.code != 0 {
        return Err(Fault::new(r.code, r.place, [NONE; POINTS_LEN], book));
    }
    Ok(Reverse {
        forward,
        phi,
        psi,
        commands: r.commands,
        count: size(r.count).min(FOUND_LEN),
    })
}
