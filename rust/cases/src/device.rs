//! Devices, items and runs as values, and their bytes.

/// A device's table and its commands' weights. Where command b undoes command a
/// in every state, `inverse[a]` may name b.
#[derive(Clone, Debug)]
pub struct Device {
    pub n: usize,
    pub m: usize,
    pub table: Vec<u64>,
    pub weights: Vec<u16>,
    pub inverse: Vec<Option<u8>>,
}

#[derive(Clone, Debug, PartialEq, Eq)]
pub struct Item {
    pub forward: Vec<u8>,
    pub reverse: Vec<u8>,
    pub phi: u64,
    pub psi: u64,
}

pub fn all(n: usize) -> u64 {
    u64::MAX >> (64 - n)
}

/// The states of a set, lowest first.
pub fn states(set: u64) -> impl Iterator<Item = usize> {
    let mut left = set;
    std::iter::from_fn(move || {
        let state = left.trailing_zeros();
        left &= left.checked_sub(1)?;
        Some(state as usize)
    })
}

impl Device {
    /// A device with no outcomes and weights of 1.
    pub fn empty(n: usize, m: usize) -> Self {
        Device {
            n,
            m,
            table: vec![0; n * m],
            weights: vec![1; m],
            inverse: vec![None; m],
        }
    }

    pub fn outcomes(&self, state: usize, command: u8) -> u64 {
        self.table[state * self.m + usize::from(command)]
    }

    pub fn set(&mut self, state: usize, command: usize, outcomes: u64) {
        self.table[state * self.m + command] = outcomes;
    }

    pub fn after(&self, set: u64, command: u8) -> u64 {
        states(set).fold(0, |union, s| union | self.outcomes(s, command))
    }

    /// The ends in phi that the forward commands can lead to from this start.
    pub fn ends(&self, start: usize, forward: &[u8], phi: u64) -> u64 {
        forward
            .iter()
            .fold(1 << start, |set, &c| self.after(set, c))
            & phi
    }

    /// Whether the reverse commands undo the forward ones from this start. They do where it has
    /// no end.
    pub fn undone(&self, start: usize, forward: &[u8], reverse: &[u8], phi: u64) -> bool {
        let mut set = self.ends(start, forward, phi);
        if set == 0 {
            return true;
        }
        for &command in reverse {
            if states(set).any(|s| self.outcomes(s, command) == 0) {
                return false;
            }
            set = self.after(set, command);
        }
        set == 1 << start
    }

    /// The starts from which the reverse commands undo the forward ones.
    pub fn undone_starts(&self, forward: &[u8], reverse: &[u8], phi: u64) -> u64 {
        self.starts(|s| self.undone(s, forward, reverse, phi))
    }

    /// The starts that have an end.
    pub fn effective_starts(&self, forward: &[u8], phi: u64) -> u64 {
        self.starts(|s| self.ends(s, forward, phi) != 0)
    }

    fn starts(&self, wanted: impl Fn(usize) -> bool) -> u64 {
        (0..self.n)
            .filter(|&s| wanted(s))
            .fold(0, |set, s| set | 1 << s)
    }

    /// Whether the item is a conditional reverse plan.
    pub fn undoes(&self, item: &Item) -> bool {
        item.psi & !self.undone_starts(&item.forward, &item.reverse, item.phi) == 0
    }

    /// Whether some start of the item has an end.
    pub fn effective(&self, item: &Item) -> bool {
        item.psi & self.effective_starts(&item.forward, item.phi) != 0
    }

    /// The possible states at each point; all zero where there is no history.
    pub fn possible(&self, commands: &[u8], sightings: &[u64]) -> Vec<u64> {
        let mut at = sightings.to_vec();
        for (j, &c) in commands.iter().enumerate() {
            at[j + 1] &= self.after(at[j], c);
        }
        for (j, &c) in commands.iter().enumerate().rev() {
            at[j] = states(at[j])
                .filter(|&s| self.outcomes(s, c) & at[j + 1] != 0)
                .fold(0, |set, s| set | 1 << s);
        }
        at
    }
}

pub fn record(kind: u16, body: &[u8]) -> Vec<u8> {
    let mut bytes = (body.len() as u16).to_le_bytes().to_vec();
    bytes.extend(kind.to_le_bytes());
    bytes.extend(body);
    bytes
}

pub fn move_record(state: u8, command: u8, mask: u64) -> Vec<u8> {
    let mut body = vec![state, command];
    body.extend(mask.to_le_bytes());
    record(2, &body)
}

pub fn weights_record(weights: &[u16]) -> Vec<u8> {
    let body: Vec<u8> = weights.iter().flat_map(|w| w.to_le_bytes()).collect();
    record(5, &body)
}

pub fn item_record(item: &Item) -> Vec<u8> {
    let mut body = vec![item.forward.len() as u8, item.reverse.len() as u8];
    body.extend(&item.forward);
    body.extend(&item.reverse);
    body.extend(item.phi.to_le_bytes());
    body.extend(item.psi.to_le_bytes());
    record(3, &body)
}

/// The records of a book, in order; without weights where all are 1.
pub fn book_records(device: &Device, items: &[Item]) -> Vec<Vec<u8>> {
    let mut records = vec![record(1, &[device.n as u8, device.m as u8])];
    if device.weights.iter().any(|&weight| weight != 1) {
        records.push(weights_record(&device.weights));
    }
    for (entry, &mask) in device.table.iter().enumerate() {
        if mask != 0 {
            records.push(move_record(
                (entry / device.m) as u8,
                (entry % device.m) as u8,
                mask,
            ));
        }
    }
    records.extend(items.iter().map(item_record));
    records
}

pub fn book_bytes(device: &Device, items: &[Item]) -> Vec<u8> {
    book_records(device, items).concat()
}

pub fn run_bytes(commands: &[u8], sightings: &[u64]) -> Vec<u8> {
    let mut body = vec![commands.len() as u8];
    body.extend(commands);
    for sighting in sightings {
        body.extend(sighting.to_le_bytes());
    }
    record(4, &body)
}

/// The 34 bytes of an item's slot.
pub fn slot_bytes(item: &Item) -> [u8; 34] {
    let mut slot = [0; 34];
    slot[0] = item.forward.len() as u8;
    slot[1] = item.reverse.len() as u8;
    slot[2..2 + item.forward.len()].copy_from_slice(&item.forward);
    slot[10..10 + item.reverse.len()].copy_from_slice(&item.reverse);
    slot[18..26].copy_from_slice(&item.phi.to_le_bytes());
    slot[26..].copy_from_slice(&item.psi.to_le_bytes());
    slot
}

/// The ridge repeater, by the words of docs/FORMAT.md.
pub fn ridge_device() -> Device {
    let state = |c: usize, p: usize, q: usize| 1u64 << (c + 4 * p + 16 * q);
    let mut device = Device::empty(64, 16);
    for s in 0..64 {
        let (c, p, q) = (s % 4, s / 4 % 4, s / 16);
        for x in 0..4 {
            if q == 0 {
                device.set(s, x, state(x, p, q));
            }
            if q == 1 {
                device.set(s, x, state(x, p, q) | state(c, p, q));
            }
            if q < 3 {
                device.set(s, 4 + x, state(c, x, q));
                device.set(s, 8 + x, state(c, p, x));
            }
        }
        if q == 3 {
            device.set(s, 12, state(c, p, 0));
        }
        if q == 0 {
            device.set(s, 13, (0..4).fold(0, |set, c| set | state(c, p, 0)));
        }
        if q < 3 && p < 3 {
            device.set(s, 14, state(c, p + 1, q));
        }
        if q < 3 && p > 0 {
            device.set(s, 15, state(c, p - 1, q));
        }
    }
    device
}
