//! Books and runs for measuring. Every one is accepted.

use crate::device::{all, book_bytes, ridge_device, run_bytes, states, Device, Item};
use crate::rng::Rng;

/// Q of docs/FORMAT.md: 225 bytes, 5 items.
pub fn q_book() -> Vec<u8> {
    let mut q = Device::empty(3, 3);
    for s in 0..3 {
        q.set(s, 0, 1);
        q.set(s, 1, 2);
    }
    q.set(0, 2, 6);
    let item = |forward: &[u8], reverse: &[u8], phi, psi| Item {
        forward: forward.to_vec(),
        reverse: reverse.to_vec(),
        phi,
        psi,
    };
    let items = [
        item(&[2], &[1, 0], 7, 7),
        item(&[1], &[0], 7, 1),
        item(&[2, 1], &[0], 7, 7),
        item(&[1], &[], 7, 2),
        item(&[2], &[0], 7, 7),
    ];
    book_bytes(&q, &items)
}

/// Q5: commands 2 1, nothing heard.
pub fn q5_run() -> Vec<u8> {
    run_bytes(&[2, 1], &[7, 7, 7])
}

/// A device of m commands, m even, that all are permutations; each odd
/// command undoes the even one before it. The last pair is the identity.
pub fn permutations(rng: &mut Rng, n: usize, m: usize) -> Device {
    let mut device = Device::empty(n, m);
    for pair in (0..m).step_by(2) {
        let mut to: Vec<usize> = (0..n).collect();
        if pair + 2 < m {
            rng.shuffle(&mut to);
        }
        for (s, &t) in to.iter().enumerate() {
            device.set(s, pair, 1 << t);
            device.set(t, pair + 1, 1 << s);
        }
        device.inverse[pair] = Some(pair as u8 + 1);
        device.inverse[pair + 1] = Some(pair as u8);
    }
    device
}

fn inverses(device: &Device, forward: &[u8]) -> Vec<u8> {
    forward
        .iter()
        .rev()
        .map(|&c| device.inverse[usize::from(c)].unwrap())
        .collect()
}

/// The forward commands of the largest book: 16 rows, each in four items.
fn largest_rows() -> Vec<Vec<u8>> {
    let mut rng = Rng::new(0x1a26e57);
    (0..16)
        .map(|_| (0..8).map(|_| rng.below(30) as u8).collect())
        .collect()
}

/// 31,178 bytes: weights of 969 to 1,000, 2,048 moves of one outcome each, 64
/// items with k = r = 8 and all states in phi and psi.
pub fn largest_book() -> Vec<u8> {
    let mut device = permutations(&mut Rng::new(1), 64, 32);
    device.weights = (969..=1000).collect();
    let rows = largest_rows();
    let items: Vec<Item> = (0..64)
        .map(|number| Item {
            forward: rows[number % 16].clone(),
            reverse: inverses(&device, &rows[number % 16]),
            phi: u64::MAX,
            psi: u64::MAX,
        })
        .collect();
    book_bytes(&device, &items)
}

/// 32 commands, nothing heard; a chain of four legs and 32 commands.
pub fn largest_run() -> Vec<u8> {
    let rows = largest_rows();
    run_bytes(
        &[3, 9, 14, 6].map(|row| rows[row].clone()).concat(),
        &[u64::MAX; 33],
    )
}

// The branching device. A state is a + 16 × b: place a (0 to 15), side b / 2
// and noise b % 2. Places 15 are traps. Each command of 0 to 15 moves the
// place of either side by a permutation of the places 0 to 14.
// - 0 to 7 enter: from noise 0 to either noise or a trap; from noise 1 to
//   traps only.
// - 8 to 15 go on: to either noise or a trap.
// - 16 to 23 undo 8 to 15, to either noise.
// - 24 to 31 undo 0 to 7, to noise 0.
// Traps lead to traps. Forward an item enters once and then goes on; phi has
// no traps, so a start with noise 1 has no end in phi.
const TRAPS: u64 = 0x8000_8000_8000_8000;

fn branching_device() -> Device {
    let mut rng = Rng::new(2);
    let mut device = Device::empty(64, 32);
    let bit = |a: usize, b: usize| 1u64 << (a + 16 * b);
    for command in 0..16 {
        let undo = (command + 16) ^ 8; // 0..7 to 24..31, 8..15 to 16..23
        for side in [0, 2] {
            let mut to: Vec<usize> = (0..15).collect();
            rng.shuffle(&mut to);
            for (a, &t) in to.iter().enumerate() {
                for noise in [0, 1] {
                    let trap = bit(15, rng.below(4));
                    let either = bit(t, side) | bit(t, side + 1);
                    let goes = if command >= 8 || noise == 0 {
                        either | trap
                    } else {
                        TRAPS
                    };
                    device.set(a + 16 * (side + noise), command, goes);
                    let mut back = bit(a, side);
                    if command >= 8 {
                        back |= bit(a, side + 1);
                    }
                    device.set(t + 16 * (side + noise), undo, back);
                }
            }
        }
        for b in 0..4 {
            device.set(15 + 16 * b, command, TRAPS);
            device.set(15 + 16 * b, undo, TRAPS);
        }
    }
    device
}

fn branching_rows() -> Vec<Vec<u8>> {
    let mut rng = Rng::new(3);
    (0..16)
        .map(|_| {
            let mut row = vec![rng.below(8) as u8];
            row.extend((1..8).map(|_| rng.within(8, 15) as u8));
            row
        })
        .collect()
}

/// 31,110 bytes: 2,048 moves, most with 2 to 4 outcomes, 64 items with
/// k = r = 8, psi of all states and phi of all but the four traps; no weights.
pub fn branching_book() -> Vec<u8> {
    let rows = branching_rows();
    let items: Vec<Item> = (0..64)
        .map(|number| {
            let forward = rows[number % 16].clone();
            let reverse = forward.iter().rev().map(|c| (c + 16) ^ 8).collect();
            Item {
                forward,
                reverse,
                phi: !TRAPS,
                psi: u64::MAX,
            }
        })
        .collect();
    book_bytes(&branching_device(), &items)
}

/// 32 commands; heard is only that points 8, 16, 24 and 32 are no traps. A
/// chain of four legs and 32 commands.
pub fn branching_run() -> Vec<u8> {
    let rows = branching_rows();
    let commands = [5, 0, 11, 7].map(|row| rows[row].clone()).concat();
    let mut sightings = [u64::MAX; 33];
    for point in [8, 16, 24, 32] {
        sightings[point] = !TRAPS;
    }
    run_bytes(&commands, &sightings)
}

/// The states of the ridge repeater with this channel, power and mode.
fn ridge_states(c: Option<u8>, p: Option<u8>, q: Option<u8>) -> u64 {
    let has = |asked: Option<u8>, value: usize| asked.is_none_or(|x| usize::from(x) == value);
    states(u64::MAX)
        .filter(|s| has(c, s % 4) && has(p, s / 4 % 4) && has(q, s / 16))
        .fold(0, |set, s| set | 1 << s)
}

/// The ridge repeater with its 616 moves and 45 items.
pub fn ridge_book() -> Vec<u8> {
    let mut items = Vec::new();
    let mut add = |forward: &[u8], reverse: &[u8], psi| {
        items.push(Item {
            forward: forward.to_vec(),
            reverse: reverse.to_vec(),
            phi: u64::MAX,
            psi,
        })
    };
    for p in 0..4 {
        // Power from p, in any mode that allows it; and up and down to it.
        for x in 0..4 {
            if x != p {
                add(&[4 + x], &[4 + p], ridge_states(None, Some(p), None));
            }
        }
    }
    add(&[14], &[15], u64::MAX);
    add(&[15], &[14], u64::MAX);
    add(&[14, 14], &[15, 15], u64::MAX);
    add(&[12], &[11], u64::MAX);
    for q in 0..3 {
        // Mode from q.
        for x in 0..3 {
            if x != q {
                add(&[8 + x], &[8 + q], ridge_states(None, None, Some(q)));
            }
        }
        // Locking from q.
        add(&[11], &[12, 8 + q], ridge_states(None, None, Some(q)));
        // Locked and opened again: the mode is lost but known.
        add(&[11, 12], &[8 + q], ridge_states(None, None, Some(q)));
    }
    for c in 0..4 {
        // Channel from c in standby, by a search, and in relay, which has to
        // go through standby because relay may stay where it is.
        add(&[(c + 1) % 4], &[c], ridge_states(Some(c), None, Some(0)));
        add(&[13], &[c], ridge_states(Some(c), None, Some(0)));
        add(&[13, 9], &[8, c], ridge_states(Some(c), None, Some(0)));
        add(
            &[(c + 2) % 4],
            &[8, c, 9],
            ridge_states(Some(c), None, Some(1)),
        );
    }
    add(
        &[0, 1, 2, 3],
        &[8, 3, 9],
        ridge_states(Some(3), None, Some(1)),
    );
    book_bytes(&ridge_device(), &items)
}

/// 20 commands from state 0 with a little heard; the chain needs many legs.
pub fn ridge_run() -> Vec<u8> {
    let commands = [
        14, 1, 14, 9, 3, 7, 8, 13, 9, 15, 11, 12, 13, 4, 14, 14, 10, 5, 8, 11,
    ];
    let mut sightings = [u64::MAX; 21];
    sightings[0] = 1;
    sightings[5] = ridge_states(Some(3), None, None);
    sightings[9] = ridge_states(Some(2), None, None);
    sightings[13] = ridge_states(Some(1), None, None);
    run_bytes(&commands, &sightings)
}

/// A book to show how checking grows: n states, 32 commands that all are
/// permutations, and items with k forward and r reverse commands and all
/// states in phi and psi.
pub fn grown_book(n: usize, items: usize, k: usize, r: usize) -> Vec<u8> {
    assert!((1..=64).contains(&n) && items <= 64 && (1..=8).contains(&k) && r <= 8);
    let device = permutations(&mut Rng::new(4), n, 32);
    let mut rng = Rng::new(5);
    let items: Vec<Item> = (0..items)
        .map(|_| {
            // Where one side is longer the rest of it is the identity.
            let mut forward: Vec<u8> = (0..k.min(r)).map(|_| rng.below(30) as u8).collect();
            let mut reverse = inverses(&device, &forward);
            forward.resize(k, 30);
            reverse.resize(r, 31);
            Item {
                forward,
                reverse,
                phi: all(n),
                psi: all(n),
            }
        })
        .collect();
    book_bytes(&device, &items)
}
