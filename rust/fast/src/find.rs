//! Finding the reverse for an item.

use crate::check::check_book;
use crate::read::Lent;
use crate::step::{Entries, Step};
use crate::{all, Fault, Found, SLOTS, TABLE, WEIGHTS};

pub fn find(book: &[u8], forward: &[u8], phi: u64, psi: u64, table: &mut [u64]) -> Found {
    let ((code, place), (count, commands)) = match find_reverse(book, forward, phi, psi, table) {
        Ok(found) => ((0, 0), found),
        Err(fault) => (fault, (0, [0; 3])),
    };
    Found {
        code,
        place: place as u64,
        count,
        commands,
    }
}

/// How many commands, and the commands.
type Reverse = (u64, [u8; 3]);

/// A start, and the states from which a reverse must lead back to it.
#[derive(Clone, Copy)]
struct Start {
    state: u32,
    set: u64,
}

/// The starts that have an end, as many as there are.
struct Starts {
    starts: [Start; 64],
    count: usize,
}

impl Starts {
    #[inline]
    fn new() -> Starts {
        Starts {
            starts: [Start { state: 0, set: 0 }; 64],
            count: 0,
        }
    }

    #[inline]
    fn push(&mut self, start: Start) {
        self.starts[self.count % 64] = start;
        self.count += 1;
    }

    #[inline]
    fn list(&self) -> &[Start] {
        &self.starts[..self.count]
    }
}

fn find_reverse(
    book: &[u8],
    forward: &[u8],
    phi: u64,
    psi: u64,
    table: &mut [u64],
) -> Result<Reverse, Fault> {
    let (mut slots, mut weights) = ([0; SLOTS], [0; WEIGHTS]);
    let mut lent = Lent::new(table, &mut slots, &mut weights).ok_or((1, 0))?;
    let found = check_book(book, &mut lent, &mut 0)?;
    let (n, m, table) = (found.n, found.m, &*lent.table);
    let highest = forward.iter().fold(0, |high, &command| command.max(high));
    let held =
        (1..=8).contains(&forward.len()) && usize::from(highest) < m && (phi | psi) & !all(n) == 0;
    if !held {
        return Err((14, 0));
    }

    // Two starts can't be told apart once they share a state: from there a reverse leads to one of
    // them.
    let (mut starts, mut seen, mut left) = (Starts::new(), 0, psi);
    while left != 0 {
        let state = left.trailing_zeros();
        left &= left - 1;
        let set = ends(table, m, state, forward) & phi;
        if set & seen != 0 {
            return Err((15, 0));
        }
        if set != 0 {
            seen |= set;
            starts.push(Start { state, set });
        }
    }
    match starts.list() {
        [] => Err((15, 0)),
        starts if starts.iter().all(|start| start.set == 1 << start.state) => Ok((0, [0; 3])),
        // With few states the larger arrays take longer to fill than to search.
        starts if n <= 8 => Search::<8>::new(table, n, m).least(starts).ok_or((15, 0)),
        starts => Search::<64>::new(table, n, m).least(starts).ok_or((15, 0)),
    }
}

/// The states that the forward commands may lead to.
#[inline]
fn ends(table: &[u64; TABLE], m: usize, start: u32, forward: &[u8]) -> u64 {
    forward.iter().fold(1 << start, |set, &command| {
        let command = usize::from(command);
        Entries { table, m, command }.after(set)
    })
}

/// Commands as bits of a number, for at most N states.
struct Search<'a, const N: usize> {
    table: &'a [u64; TABLE],
    m: usize,
    /// By state: those that can be carried out.
    able: [u32; N],
    /// By state and state: those that lead from the one to the other, and nowhere else.
    lead: [[u32; N]; N],
}

impl<'a, const N: usize> Search<'a, N> {
    #[inline]
    fn new(table: &'a [u64; TABLE], n: usize, m: usize) -> Self {
        let (mut able, mut lead) = ([0; N], [[0; N]; N]);
        let rows = table.chunks_exact(m).take(n);
        for (row, (able, lead)) in rows.zip(able.iter_mut().zip(&mut lead)) {
            for (command, &mask) in row.iter().enumerate() {
                let bit = u32::from(mask != 0) << (command % 32);
                *able |= bit;
                if mask & mask.wrapping_sub(1) == 0 {
                    lead[mask.trailing_zeros() as usize % N] |= bit;
                }
            }
        }
        Search {
            table,
            m,
            able,
            lead,
        }
    }

    /// The least reverse of one to three commands.
    fn least(&self, starts: &[Start]) -> Option<Reverse> {
        let last = self.last_of(starts, |set| set);
        if last != 0 {
            return Some((1, [lowest(last), 0, 0]));
        }
        let able = self.able(starts);
        for first in bits(able) {
            let last = self.last_after(starts, first);
            if last != 0 {
                return Some((2, [first, lowest(last), 0]));
            }
        }
        for first in bits(able) {
            let mut after = Starts::new();
            if !self.put_after(starts, first, &mut after) {
                continue;
            }
            for second in bits(self.able(after.list())) {
                let last = self.last_after(after.list(), second);
                if last != 0 {
                    return Some((3, [first, second, lowest(last)]));
                }
            }
        }
        None
    }

    /// The commands that every state of every set can carry out.
    #[inline]
    fn able(&self, starts: &[Start]) -> u32 {
        let mut left = starts.iter().fold(0, |union, start| union | start.set);
        let mut able = u32::MAX;
        while left != 0 {
            able &= self.able[left.trailing_zeros() as usize % N];
            left &= left - 1;
        }
        able
    }

    /// Puts the sets after a command that every state can carry out. False where two starts share a
    /// state.
    #[inline]
    fn put_after(&self, starts: &[Start], command: u8, after: &mut Starts) -> bool {
        let entries = self.entries(command);
        let mut seen = 0;
        for &Start { state, set } in starts {
            let set = entries.after(set);
            if set & seen != 0 {
                return false;
            }
            seen |= set;
            after.push(Start { state, set });
        }
        true
    }

    /// The commands that come last after this one, which every state can carry out.
    #[inline]
    fn last_after(&self, starts: &[Start], command: u8) -> u32 {
        let entries = self.entries(command);
        self.last_of(starts, |set| entries.after(set))
    }

    /// The commands that lead back to each start from the set that is made of its own. A set has the
    /// start alone after a command exactly where each of its states has.
    #[inline]
    fn last_of(&self, starts: &[Start], make: impl Fn(u64) -> u64) -> u32 {
        let mut last = u32::MAX;
        for start in starts {
            let mut left = make(start.set);
            while left != 0 {
                let lead = &self.lead[left.trailing_zeros() as usize % N];
                last &= lead[start.state as usize % N];
                left &= left - 1;
            }
            if last == 0 {
                break;
            }
        }
        last
    }

    #[inline]
    fn entries(&self, command: u8) -> Entries<'_> {
        Entries {
            table: self.table,
            m: self.m,
            command: command.into(),
        }
    }
}

#[inline]
fn lowest(commands: u32) -> u8 {
    commands.trailing_zeros() as u8
}

/// The commands of a set, the lowest first.
#[inline]
fn bits(commands: u32) -> impl Iterator<Item = u8> {
    let mut left = commands;
    std::iter::from_fn(move || {
        let command = lowest(left);
        left &= left.checked_sub(1)?;
        Some(command)
    })
}
