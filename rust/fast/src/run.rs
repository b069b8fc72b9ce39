//! Runs and what may have happened.

use crate::read::Book;
use crate::{all, word, POINTS, RUN, TABLE};

/// The commands of a run, and a sighting for each of its points.
pub(crate) struct Run<'a> {
    pub commands: &'a [u8],
    sightings: &'a [[u8; 8]],
}

impl<'a> Run<'a> {
    /// None where it isn't exactly one record that fits the device.
    #[inline]
    pub fn of(run: &'a [u8], book: &Book) -> Option<Self> {
        let (&[a, b, 4, 0, i], rest) = run.split_first_chunk()? else {
            return None;
        };
        let i = usize::from(i);
        let length = usize::from(u16::from_le_bytes([a, b]));
        if i > RUN || length != 9 + 9 * i || run.len() != 4 + length {
            return None;
        }
        let (commands, sightings) = rest.split_at(i);
        let sightings = sightings.as_chunks().0;
        let highest = commands.iter().fold(0, |high, &command| command.max(high));
        let seen = sightings
            .iter()
            .fold(0, |all, &mask| all | u64::from_le_bytes(mask));
        let fits = usize::from(highest) < book.m && seen & !all(book.n) == 0;
        fits.then_some(Run {
            commands,
            sightings,
        })
    }

    /// Puts the possible states at each point and says whether there is a history.
    #[inline]
    pub fn possible(&self, table: &[u64; TABLE], book: &Book, at: &mut [u64; POINTS]) -> bool {
        let mut set = u64::from_le_bytes(self.sightings[0]);
        at[0] = set;
        for (j, &command) in (1..POINTS).zip(self.commands) {
            let mut union = 0;
            visit(table, book, set, command, |_, outcomes| union |= outcomes);
            set = union & word(self.sightings.as_flattened(), 8 * j);
            at[j] = set;
        }
        if set == 0 {
            return false;
        }
        for (j, &command) in (0..RUN).zip(self.commands).rev() {
            let mut kept = 0;
            visit(table, book, at[j], command, |state, outcomes| {
                kept |= u64::from(outcomes & set != 0) << state;
            });
            set = kept;
            at[j] = set;
        }
        true
    }
}

/// Visits the states of a set with the command's outcomes there.
#[inline(always)]
fn visit(
    table: &[u64; TABLE],
    book: &Book,
    set: u64,
    command: u8,
    mut visit: impl FnMut(usize, u64),
) {
    let command = usize::from(command);
    if set == all(book.n) {
        for state in 0..book.n {
            visit(state, table[(state * book.m + command) % TABLE]);
        }
        return;
    }
    let mut left = set;
    while left != 0 {
        let state = left.trailing_zeros() as usize;
        visit(state, table[(state * book.m + command) % TABLE]);
        left &= left - 1;
    }
}
