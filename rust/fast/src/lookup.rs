//! The devices with constant tables.

use crate::Lookup;

static RIDGE: [[u64; 16]; 64] = {
    let mut masks = [[0; 16]; 64];
    let mut state = 0;
    while state < 64 {
        let mut command = 0;
        while command < 16 {
            masks[state][command] = ridge_rule(state, command);
            command += 1;
        }
        state += 1;
    }
    masks
};

static PORTABLE: [[u64; 12]; 32] = {
    let mut masks = [[0; 12]; 32];
    let mut state = 0;
    while state < 32 {
        let mut command = 0;
        while command < 12 {
            masks[state][command] = portable_rule(state, command);
            command += 1;
        }
        state += 1;
    }
    masks
};

#[inline]
pub fn ridge(state: u64, command: u64) -> Lookup {
    lookup(&RIDGE, state, command)
}

#[inline]
pub fn portable(state: u64, command: u64) -> Lookup {
    lookup(&PORTABLE, state, command)
}

#[inline]
fn lookup<const N: usize, const M: usize>(
    masks: &[[u64; M]; N],
    state: u64,
    command: u64,
) -> Lookup {
    let (code, mask) = if state < N as u64 && command < M as u64 {
        (0, masks[state as usize][command as usize])
    } else {
        (5, 0)
    };
    Lookup {
        code,
        place: 0,
        mask,
    }
}

const fn ridge_rule(state: usize, command: usize) -> u64 {
    let (c, p, q) = (state % 4, state / 4 % 4, state / 16);
    match (command, q) {
        (0..=3, 0) => ridge_state(command, p, q),
        (0..=3, 1) => ridge_state(command, p, q) | ridge_state(c, p, q),
        (4..=7, 0..=2) => ridge_state(c, command - 4, q),
        (8..=11, 0..=2) => ridge_state(c, p, command - 8),
        (12, 3) => ridge_state(c, p, 0),
        (13, 0) => 15 * ridge_state(0, p, q),
        (14, 0..=2) if p < 3 => ridge_state(c, p + 1, q),
        (15, 0..=2) if p > 0 => ridge_state(c, p - 1, q),
        _ => 0,
    }
}

/// The set of one state: channel, power, mode.
const fn ridge_state(c: usize, p: usize, q: usize) -> u64 {
    1 << (c + 4 * p + 16 * q)
}

const fn portable_rule(state: usize, command: usize) -> u64 {
    let (c, p, q) = (state % 8, state / 8 % 2, state / 16);
    match (command, q) {
        (0..=7, 0) => portable_state(command, p, q),
        (0..=7, _) => portable_state(command, p, q) | portable_state(c, p, q),
        (8..=9, _) => portable_state(c, command - 8, q),
        (10, _) => portable_state(c, p, 1),
        _ => portable_state(c, p, 0),
    }
}

const fn portable_state(c: usize, p: usize, q: usize) -> u64 {
    1 << (c + 8 * p + 16 * q)
}
