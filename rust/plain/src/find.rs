//! Finding the reverse for an item.

use crate::read::check_book;
use crate::sets::{able, after, all, states};
use crate::{Fault, Found, Lent, SLOTS, WEIGHTS};

/// The ends of each start: none where it isn't in psi.
type Ends = [u64; 64];

/// Finds "a reverse of at most 3 commands that makes an accepted item"; the
/// commands unused in it are 0.
pub fn find(book: &[u8], forward: &[u8], phi: u64, psi: u64, table: &mut [u64]) -> Found {
    match find_reverse(book, forward, phi, psi, table) {
        Ok((count, commands)) => Found {
            code: 0,
            place: 0,
            count: count as u64,
            commands,
        },
        Err(Fault { code, place }) => Found {
            code,
            place,
            count: 0,
            commands: [0; 3],
        },
    }
}

/// The reverse: how many commands, and the commands.
fn find_reverse(
    book: &[u8],
    forward: &[u8],
    phi: u64,
    psi: u64,
    table: &mut [u64],
) -> Result<(usize, [u8; 3]), Fault> {
    // "The only buffer is a table, read as by checking"; slots and weights are
    // thrown away.
    let lent = &mut Lent {
        table: &mut *table,
        slots: &mut [0; SLOTS],
        weights: &mut [0; WEIGHTS],
    };
    let found = check_book(book, lent, &mut 0)?;
    let m = found.m;

    // "forward commands or masks that no item may hold, after the book's own
    // codes, 8 and 12 too"
    let held = (1..=8).contains(&forward.len())
        && forward.iter().all(|&command| usize::from(command) < m)
        && (phi | psi) & !all(found.n) == 0;
    if !held {
        return Err(Fault::new(14, 0));
    }

    let mut ends = [0; 64];
    for start in states(psi) {
        let last = (forward.iter()).fold(1 << start, |set, &c| after(table, m, set, c));
        ends[start] = last & phi;
    }
    // "at least one start in psi must reach an end in phi"
    let effective = ends.iter().any(|&set| set != 0);
    // "no such reverse, last"
    let least = least(table, m, &ends).filter(|_| effective);
    least.ok_or(Fault::new(15, 0))
}

/// "the shortest, and among equals the one with lower commands first"
fn least(table: &[u64], m: usize, ends: &Ends) -> Option<(usize, [u8; 3])> {
    for count in 0..=3 {
        // Those of a count as numbers to the base m, the first command highest.
        for number in 0..m.pow(count as u32) {
            let mut commands = [0; 3];
            let mut left = number;
            for command in commands[..count].iter_mut().rev() {
                *command = (left % m) as u8;
                left /= m;
            }
            if undoes(table, m, ends, &commands[..count]) {
                return Some((count, commands));
            }
        }
    }
    None
}

/// Whether the reverse commands lead from the ends of each start back to it.
/// Of a start without an end nothing is asked.
fn undoes(table: &[u64], m: usize, ends: &Ends, reverse: &[u8]) -> bool {
    let mut starts = ends.iter().enumerate().filter(|(_, &set)| set != 0);
    starts.all(|(start, &set)| leads_back(table, m, set, reverse, start))
}

/// "a reverse run has either no command left and S alone in the set, or a next
/// command that every state of the set can carry out, with the rest run from
/// the set after it"
fn leads_back(table: &[u64], m: usize, set: u64, reverse: &[u8], start: usize) -> bool {
    match *reverse {
        [] => set == 1 << start,
        [next, ref rest @ ..] => {
            able(table, m, set, next)
                && leads_back(table, m, after(table, m, set, next), rest, start)
        }
    }
}
