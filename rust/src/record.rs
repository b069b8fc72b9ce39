use core::fmt;

/// What a record is, as far as its header says.
#[derive(Clone, Copy, Debug, PartialEq, Eq)]
#[non_exhaustive]
pub enum Kind {
    /// Kind 1: the numbers of states and commands.
    Device,
    /// Kind 2: the outcomes of a command in a state.
    Move,
    /// Kind 3: an item.
    Item,
    /// Kind 5: the commands' weights.
    Weights,
    /// Another kind, or no kind is there.
    Unknown,
}

/// A record of a book, by name and place. Printed: `item 1 (record at 129)`.
#[derive(Clone, Copy, Debug, PartialEq, Eq)]
pub struct Record {
    /// What it is.
    pub kind: Kind,
    /// How many of that kind stand before it; for an unknown kind, how many records.
    pub number: usize,
    /// The offset of its first byte.
    pub place: usize,
}

/// The record at a place that a call gave for this book.
///
/// ```
/// let book = [2, 0, 1, 0, 3, 3, 10, 0, 2, 0, 0, 0, 0, 0, 0, 0, 0, 0, 0, 0];
/// assert_eq!(rollback::record_at(&book, 6).to_string(), "move 0 (record at 6)");
/// ```
#[must_use]
pub fn record_at(book: &[u8], place: usize) -> Record {
    let (mut devices, mut moves, mut items, mut weights, mut records) = (0, 0, 0, 0, 0);
    let mut rest = book;
    loop {
        let header = rest.first_chunk::<4>().copied();
        let (kind, number) = match header {
            Some([_, _, 1, 0]) => (Kind::Device, &mut devices),
            Some([_, _, 2, 0]) => (Kind::Move, &mut moves),
            Some([_, _, 3, 0]) => (Kind::Item, &mut items),
            Some([_, _, 5, 0]) => (Kind::Weights, &mut weights),
            _ => (Kind::Unknown, &mut records),
        };
        let passed = book.len() - rest.len();
        let Some([low, high, ..]) = header.filter(|_| passed < place) else {
            return Record {
                kind,
                number: *number,
                place,
            };
        };
        *number += 1;
        if kind != Kind::Unknown {
            records += 1;
        }
        let length = 4 + usize::from(u16::from_le_bytes([low, high]));
        rest = rest.get(length..).unwrap_or_default();
    }
}

impl fmt::Display for Record {
    fn fmt(&self, f: &mut fmt::Formatter<'_>) -> fmt::Result {
        let (number, place) = (self.number, self.place);
        match self.kind {
            Kind::Device => write!(f, "device {number} (record at {place})"),
            Kind::Move => write!(f, "move {number} (record at {place})"),
            Kind::Item => write!(f, "item {number} (record at {place})"),
            Kind::Weights => write!(f, "weights {number} (record at {place})"),
            Kind::Unknown => write!(f, "record {number} (at {place})"),
        }
    }
}
