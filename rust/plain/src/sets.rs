//! Sets of states: "state s is in it when bit s (value 2^s) is 1".

use std::num::NonZeroU64;

/// All n states, n from 1 to 64.
pub(crate) fn all(n: usize) -> u64 {
    u64::MAX >> (64 - n)
}

/// The states of a set, lowest first.
pub(crate) fn states(set: u64) -> States {
    States(set)
}

pub(crate) struct States(u64);

impl Iterator for States {
    type Item = usize;

    #[inline]
    fn next(&mut self) -> Option<usize> {
        let set = NonZeroU64::new(self.0)?;
        self.0 &= self.0 - 1;
        Some(set.trailing_zeros() as usize)
    }
}

/// "The set of states after a command is the union of the outcomes over the
/// set before it."
pub(crate) fn after(table: &[u64], m: usize, set: u64, command: u8) -> u64 {
    let command = usize::from(command);
    states(set).fold(0, |union, s| union | table[s * m + command])
}

/// Whether every state of a set can carry the command out.
pub(crate) fn able(table: &[u64], m: usize, set: u64, command: u8) -> bool {
    let command = usize::from(command);
    states(set).all(|s| table[s * m + command] != 0)
}

/// The states of a set from which the command may lead into `target`.
pub(crate) fn before(table: &[u64], m: usize, set: u64, command: u8, target: u64) -> u64 {
    let command = usize::from(command);
    states(set)
        .filter(|s| table[s * m + command] & target != 0)
        .fold(0, |kept, s| kept | 1 << s)
}
