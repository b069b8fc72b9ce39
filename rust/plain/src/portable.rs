//! The portable relay: 32 states, 12 commands.

use crate::lookup::{lookup, masks};
use crate::Lookup;

const STANDBY: u64 = 0;
const RELAY: u64 = 1;

static MASKS: [[u64; 12]; 32] = masks!(rule, 32, 12);

#[inline]
pub fn portable(state: u64, command: u64) -> Lookup {
    lookup(&MASKS, state, command)
}

const fn rule(state: u64, command: u64) -> u64 {
    let (c, p, q) = (state % 8, state / 8 % 2, state / 16);
    match (command, q) {
        (0..=7, STANDBY) => only(command, p, q),
        (0..=7, _) => only(command, p, q) | only(c, p, q),
        (8..=9, _) => only(c, command - 8, q),
        (10, _) => only(c, p, RELAY),
        _ => only(c, p, STANDBY),
    }
}

/// The set of the one state with this channel, power and mode.
const fn only(c: u64, p: u64, q: u64) -> u64 {
    1 << (c + 8 * p + 16 * q)
}
