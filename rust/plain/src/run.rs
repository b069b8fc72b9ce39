//! Runs and what may have happened.

use crate::sets::{after, all, before};
use crate::{POINTS, RUN};

const KIND: u16 = 4;

/// A run: i commands, and a sighting for each of the points 0 to i.
pub(crate) struct Run<'a> {
    pub commands: &'a [u8],
    pub sightings: [u64; POINTS],
}

/// The run, when it is "exactly one record" with all commands below m and all
/// masks within n.
pub(crate) fn parse(run: &[u8], n: usize, m: usize) -> Option<Run<'_>> {
    let (&[l, ll, k, kk, i], rest) = run.split_first_chunk()?;
    let length = usize::from(u16::from_le_bytes([l, ll]));
    let count = usize::from(i);
    if u16::from_le_bytes([k, kk]) != KIND
        || count > RUN
        || length != 9 + 9 * count
        || run.len() != 4 + length
    {
        return None;
    }
    let (commands, masks) = rest.split_at(count);
    if commands.iter().any(|&command| usize::from(command) >= m) {
        return None;
    }
    let mut sightings = [0; POINTS];
    let mut seen = 0;
    for (sighting, &mask) in sightings.iter_mut().zip(masks.as_chunks().0) {
        *sighting = u64::from_le_bytes(mask);
        seen |= *sighting;
    }
    (seen & !all(n) == 0).then_some(Run {
        commands,
        sightings,
    })
}

impl Run<'_> {
    /// The possible states at each point: "those that some history has
    /// there". None when there is no history.
    pub fn possible(&self, table: &[u64], m: usize) -> Option<[u64; POINTS]> {
        let mut at = self.sightings;
        // Upward: what some history so far may have.
        for (j, &command) in self.commands.iter().enumerate() {
            at[j + 1] &= after(table, m, at[j], command);
        }
        if at[self.commands.len()] == 0 {
            return None;
        }
        // Downward: what can go on to the end.
        for (j, &command) in self.commands.iter().enumerate().rev() {
            at[j] = before(table, m, at[j], command, at[j + 1]);
        }
        Some(at)
    }
}
