//! When an item is accepted, and the units that it takes to tell.

use crate::sets::{able, after, states};
use crate::slot::{self, Slot};

/// Gives 8 for an item that is no conditional reverse plan, and 12 for one that
/// is, but not an effective one. Adds the units that it makes.
pub(crate) fn judge(table: &[u64], m: usize, slot: &Slot, units: &mut u64) -> Result<(), u64> {
    // "One unit is one command applied to one set, an empty set too."
    let mut apply = |set, command| {
        *units += 1;
        after(table, m, set, command)
    };

    let mut effective = false;
    // "starts lowest first, each with its forward commands and then its reverse
    // ones on all its ends together"
    for start in states(slot::psi(slot)) {
        let mut set = 1 << start;
        for &command in slot::forward(slot) {
            // "A trajectory that can't go on is no trajectory."
            set = apply(set, command);
        }
        set &= slot::phi(slot);
        let has_end = set != 0;
        effective |= has_end;
        for &command in slot::reverse(slot) {
            // Units "up to and including the first reverse command that some
            // state can't carry out".
            let stuck = !able(table, m, set, command);
            set = apply(set, command);
            if stuck {
                return Err(8);
            }
        }
        // "every complete one must end in S"; units up to "the start's last
        // command where a run ends outside S".
        if has_end && set != 1 << start {
            return Err(8);
        }
    }
    // "at least one start in psi must reach an end in phi"
    if !effective {
        return Err(12);
    }
    Ok(())
}
