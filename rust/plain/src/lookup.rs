//! Devices with a constant table: its masks, by a rule, and its lookup.

use crate::Lookup;

/// The masks that a rule gives, by state and command.
macro_rules! masks {
    ($rule:ident, $states:literal, $commands:literal) => {{
        let mut masks = [[0; $commands]; $states];
        let mut state = 0;
        while state < $states {
            let mut command = 0;
            while command < $commands {
                masks[state][command] = $rule(state as u64, command as u64);
                command += 1;
            }
            state += 1;
        }
        masks
    }};
}
pub(crate) use masks;

/// The mask of a state and a command; 5 for those that the device doesn't have.
#[inline]
pub(crate) fn lookup<const N: usize, const M: usize>(
    masks: &[[u64; M]; N],
    state: u64,
    command: u64,
) -> Lookup {
    if state >= N as u64 || command >= M as u64 {
        return Lookup {
            code: 5,
            place: 0,
            mask: 0,
        };
    }
    Lookup {
        code: 0,
        place: 0,
        mask: masks[state as usize][command as usize],
    }
}
