//! Commands applied to sets of states, by the table or by a copy of it.

use crate::numbers::MORE;
use crate::read::Book;
use crate::TABLE;

/// A command that can be applied to a set of states.
pub(crate) trait Step {
    /// The set after it on one state.
    fn after_one(&self, state: u32) -> u64;
    /// The set after it.
    fn after(&self, set: u64) -> u64;
    /// The same; None where some state can't carry it out.
    fn after_each(&self, set: u64) -> Option<u64>;
}

/// A command's entries in a table.
pub(crate) struct Entries<'a> {
    pub table: &'a [u64; TABLE],
    pub m: usize,
    pub command: usize,
}

impl Entries<'_> {
    #[inline]
    fn of(&self, state: u32) -> u64 {
        self.table[(state as usize * self.m + self.command) % TABLE]
    }
}

impl Step for Entries<'_> {
    #[inline]
    fn after_one(&self, state: u32) -> u64 {
        self.of(state)
    }

    #[inline]
    fn after(&self, set: u64) -> u64 {
        let (mut left, mut union) = (set, 0);
        while left != 0 {
            union |= self.of(left.trailing_zeros());
            left &= left - 1;
        }
        union
    }

    #[inline]
    fn after_each(&self, set: u64) -> Option<u64> {
        let (mut left, mut union) = (set, 0);
        while left != 0 {
            let outcomes = self.of(left.trailing_zeros());
            if outcomes == 0 {
                return None;
            }
            union |= outcomes;
            left &= left - 1;
        }
        Some(union)
    }
}

/// A command's entries in one place.
#[derive(Clone, Copy)]
pub(crate) struct Column {
    outcomes: [u64; 64],
    /// The states that can't carry it out.
    stuck: u64,
}

impl Column {
    pub const NONE: Column = Column {
        outcomes: [0; 64],
        stuck: 0,
    };

    /// From the table; and its numbers, of which all were `EMPTY`.
    #[inline(never)]
    pub fn build(
        &mut self,
        next: &mut [u8; 256],
        table: &[u64; TABLE],
        command: usize,
        book: &Book,
    ) {
        next[usize::from(MORE)] = MORE;
        let (mut at, mut stuck) = (command, 0);
        #[allow(clippy::needless_range_loop)] // iterators take longer
        for state in 0..book.n.min(64) {
            let mask = table[at % TABLE];
            at += book.m;
            if mask == 0 {
                stuck |= 1 << state;
                continue;
            }
            self.outcomes[state] = mask;
            next[state] = match mask & (mask - 1) {
                0 => mask.trailing_zeros() as u8,
                _ => MORE,
            };
        }
        self.stuck = stuck;
    }
}

impl Step for &Column {
    #[inline]
    fn after_one(&self, state: u32) -> u64 {
        self.outcomes[state as usize % 64]
    }

    #[inline]
    fn after(&self, set: u64) -> u64 {
        let (mut left, mut union) = (set, 0);
        while left != 0 {
            union |= self.outcomes[left.trailing_zeros() as usize];
            left &= left - 1;
        }
        union
    }

    #[inline]
    fn after_each(&self, set: u64) -> Option<u64> {
        (set & self.stuck == 0).then(|| self.after(set))
    }
}
