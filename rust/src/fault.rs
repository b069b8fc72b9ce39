use core::error::Error;
use core::fmt;

use crate::calls::POINTS_LEN;
use crate::{record_at, Record, NONE};

/// Why a book, a run, a forecast or a reverse was refused: a variant for each code, in order, from 1 to
/// 15.
///
/// Printed, it says where and what: `item 1 (record at 129): a field is outside its range (code 5)`.
#[derive(Clone, Copy, Debug, PartialEq, Eq)]
#[non_exhaustive]
pub enum Fault {
    /// 1: a lent buffer is shorter than stated. Only [`calls`](crate::calls) can meet it.
    ShortBuffer,
    /// 2: under 4 bytes of a record are left, or its body is cut off; an empty book too.
    CutOff(Record),
    /// 3: the kind is unknown in a book, or out of its order.
    Kind(Record),
    /// 4: the body's length is not that of its kind.
    Length(Record),
    /// 5: a field is outside its range.
    Field(Record),
    /// 6: a move doesn't rise.
    NotRising(Record),
    /// 7: a 65th item.
    TooManyItems(Record),
    /// 8: an item is no conditional reverse plan, the first wrong one.
    NotReversePlan(Record),
    /// 9: the run isn't exactly one record, or a command or mask is outside m or n; a forecast for
    /// over 32 commands.
    Run,
    /// 10: nothing can have happened that fits the run.
    NoHistory,
    /// 11: no items lead from the run's end back to its start.
    NoChain {
        /// The least sum of a chain from each point down to 0, or [`NONE`].
        fewest: [u32; POINTS_LEN],
    },
    /// 12: an item is a conditional reverse plan, but not effective; the first wrong one.
    NotEffective(Record),
    /// 13: a weights record in which every weight is 1.
    AllOnes(Record),
    /// 14: forward commands or masks that no item may hold.
    ItemFields,
    /// 15: no reverse of at most 3 commands makes an accepted item.
    NoReverse,
    /// A code that this crate doesn't know: the archive is another version's.
    Unknown {
        /// The code.
        code: u64,
        /// The place.
        place: u64,
    },
}

impl Fault {
    /// The fault of an answer to `book` with this code, which is not 0, and place. `fewest` counts
    /// for 11 only.
    #[must_use]
    pub fn new(code: u64, place: u64, fewest: [u32; POINTS_LEN], book: &[u8]) -> Fault {
        let record = || record_at(book, usize::try_from(place).unwrap_or(usize::MAX));
        match code {
            1 => Fault::ShortBuffer,
            2 => Fault::CutOff(record()),
            3 => Fault::Kind(record()),
            4 => Fault::Length(record()),
            5 => Fault::Field(record()),
            6 => Fault::NotRising(record()),
            7 => Fault::TooManyItems(record()),
            8 => Fault::NotReversePlan(record()),
            9 => Fault::Run,
            10 => Fault::NoHistory,
            11 => Fault::NoChain { fewest },
            12 => Fault::NotEffective(record()),
            13 => Fault::AllOnes(record()),
            14 => Fault::ItemFields,
            15 => Fault::NoReverse,
            _ => Fault::Unknown { code, place },
        }
    }

    /// The code.
    #[must_use]
    pub fn code(&self) -> u64 {
        match *self {
            Fault::ShortBuffer => 1,
            Fault::CutOff(_) => 2,
            Fault::Kind(_) => 3,
            Fault::Length(_) => 4,
            Fault::Field(_) => 5,
            Fault::NotRising(_) => 6,
            Fault::TooManyItems(_) => 7,
            Fault::NotReversePlan(_) => 8,
            Fault::Run => 9,
            Fault::NoHistory => 10,
            Fault::NoChain { .. } => 11,
            Fault::NotEffective(_) => 12,
            Fault::AllOnes(_) => 13,
            Fault::ItemFields => 14,
            Fault::NoReverse => 15,
            Fault::Unknown { code, .. } => code,
        }
    }

    /// The faulty record; None where the fault is not in the book.
    #[must_use]
    pub fn record(&self) -> Option<Record> {
        match *self {
            Fault::CutOff(record)
            | Fault::Kind(record)
            | Fault::Length(record)
            | Fault::Field(record)
            | Fault::NotRising(record)
            | Fault::TooManyItems(record)
            | Fault::NotReversePlan(record)
            | Fault::NotEffective(record)
            | Fault::AllOnes(record) => Some(record),
            _ => None,
        }
    }
}

impl fmt::Display for Fault {
    /// The words are those of `include/rollback_messages.h`.
    fn fmt(&self, f: &mut fmt::Formatter<'_>) -> fmt::Result {
        if let Some(record) = self.record() {
            write!(f, "{record}: ")?;
        }
        let text = match self {
            Fault::ShortBuffer => "a lent buffer is shorter than stated",
            Fault::CutOff(_) => "the book ends before this record does",
            Fault::Kind(_) => "a record of this kind can't stand here",
            Fault::Length(_) => "the record's length is not that of its kind",
            Fault::Field(_) => "a field is outside its range",
            Fault::NotRising(_) => {
                "the move doesn't rise: by state, then command, it must come after the move before it"
            }
            Fault::TooManyItems(_) => "a book has at most 64 items",
            Fault::NotReversePlan(_) => {
                "the reverse commands can get stuck, or end elsewhere than in the start"
            }
            Fault::Run => {
                "a run is one record, has at most 32 commands, and only commands and states of its device"
            }
            Fault::NoHistory => "nothing that the device can do fits what was sent and heard",
            Fault::NoChain { .. } => "no items of the book lead from the run's end back to its start",
            Fault::NotEffective(_) => {
                "the item can never be used: its forward commands lead from no start in psi to an end in phi"
            }
            Fault::AllOnes(_) => "every weight is 1, as without this record: leave it out",
            Fault::ItemFields => {
                "an item has 1 to 8 forward commands, and only commands and states of its device"
            }
            Fault::NoReverse => "no reverse of at most 3 commands makes an accepted item",
            Fault::Unknown { .. } => "a code that this crate doesn't know",
        };
        write!(f, "{text} (code {})", self.code())?;
        if let Fault::NoChain { fewest } = self {
            write!(f, "; there are chains from points")?;
            for (point, _) in fewest
                .iter()
                .enumerate()
                .filter(|(_, &fewest)| fewest != NONE)
            {
                write!(f, " {point}")?;
            }
        }
        Ok(())
    }
}

impl Error for Fault {}

/// Why a book could not be written.
#[derive(Clone, Copy, Debug, PartialEq, Eq)]
#[non_exhaustive]
pub enum WriteFault {
    /// 1: a lent buffer is shorter than stated. Only [`calls`](crate::calls) can meet it.
    ShortBuffer,
    /// 5: n is outside 1 to 64, or m outside 1 to 32.
    Device,
    /// 7: over 64 items.
    TooManyItems,
    /// 5: this command's weight is outside 1 to 1,000. The first such one.
    Weight {
        /// The command.
        command: u64,
    },
    /// 5: a state among these outcomes is not the device's. The first such ones.
    Outcomes {
        /// The state.
        state: u64,
        /// The command.
        command: u64,
    },
    /// 5: a field of this item is outside its range. The first such one.
    Item {
        /// The item's number.
        number: u64,
    },
    /// A code that this crate doesn't know: the archive is another version's.
    Unknown {
        /// The code.
        code: u64,
        /// The place.
        place: u64,
    },
}

impl WriteFault {
    /// The fault of writing's answer with this code and place, the code not 0. Which of its four
    /// meanings code 5 has, the arguments tell: weights are judged before entries, and these before
    /// items.
    #[must_use]
    pub fn new(
        code: u64,
        place: u64,
        n: u64,
        m: u64,
        table: &[u64],
        weights: &[u16],
    ) -> WriteFault {
        let at = usize::try_from(place).ok();
        let weight = at.and_then(|at| weights.get(at));
        let entry = at.and_then(|at| table.get(at));
        match code {
            1 => WriteFault::ShortBuffer,
            5 if !(1..=64).contains(&n) || !(1..=32).contains(&m) => WriteFault::Device,
            5 if place < m && weight.is_some_and(|weight| !(1..=1000).contains(weight)) => {
                WriteFault::Weight { command: place }
            }
            5 if n < 64 && place < n * m && entry.is_some_and(|mask| mask >> n != 0) => {
                WriteFault::Outcomes {
                    state: place / m,
                    command: place % m,
                }
            }
            5 => WriteFault::Item { number: place },
            7 => WriteFault::TooManyItems,
            _ => WriteFault::Unknown { code, place },
        }
    }

    /// The code.
    #[must_use]
    pub fn code(&self) -> u64 {
        match *self {
            WriteFault::ShortBuffer => 1,
            WriteFault::Device
            | WriteFault::Weight { .. }
            | WriteFault::Outcomes { .. }
            | WriteFault::Item { .. } => 5,
            WriteFault::TooManyItems => 7,
            WriteFault::Unknown { code, .. } => code,
        }
    }
}

impl fmt::Display for WriteFault {
    fn fmt(&self, f: &mut fmt::Formatter<'_>) -> fmt::Result {
        match self {
            WriteFault::ShortBuffer => write!(f, "a lent buffer is shorter than stated"),
            WriteFault::Device => write!(f, "a device has 1 to 64 states and 1 to 32 commands"),
            WriteFault::TooManyItems => write!(f, "a book has at most 64 items"),
            WriteFault::Weight { command } => {
                write!(f, "command {command}: its weight is outside 1 to 1,000")
            }
            WriteFault::Outcomes { state, command } => {
                write!(
                    f,
                    "state {state}, command {command}: an outcome is a state that the device lacks"
                )
            }
            WriteFault::Item { number } => write!(f, "item {number}: a field is outside its range"),
            WriteFault::Unknown { .. } => write!(f, "a code that this crate doesn't know"),
        }?;
        write!(f, " (code {})", self.code())
    }
}

impl Error for WriteFault {}
