//! The ridge repeater: 64 states, 16 commands.

use crate::lookup::{lookup, masks};
use crate::Lookup;

const STANDBY: u64 = 0;
const RELAY: u64 = 1;
const BEACON: u64 = 2;
const LOCKED: u64 = 3;

static MASKS: [[u64; 16]; 64] = masks!(rule, 64, 16);

#[inline]
pub fn ridge(state: u64, command: u64) -> Lookup {
    lookup(&MASKS, state, command)
}

const fn rule(state: u64, command: u64) -> u64 {
    let (c, p, q) = (state % 4, state / 4 % 4, state / 16);
    match (command, q) {
        (0..=3, STANDBY) => only(command, p, q),
        (0..=3, RELAY) => only(command, p, q) | only(c, p, q),
        (4..=7, STANDBY..=BEACON) => only(c, command - 4, q),
        (8..=11, STANDBY..=BEACON) => only(c, p, command - 8),
        (12, LOCKED) => only(c, p, STANDBY),
        (13, STANDBY) => only(0, p, q) | only(1, p, q) | only(2, p, q) | only(3, p, q),
        (14, STANDBY..=BEACON) if p < 3 => only(c, p + 1, q),
        (15, STANDBY..=BEACON) if p > 0 => only(c, p - 1, q),
        _ => 0,
    }
}

/// The set of the one state with this channel, power and mode.
const fn only(c: u64, p: u64, q: u64) -> u64 {
    1 << (c + 4 * p + 16 * q)
}
