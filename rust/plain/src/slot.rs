//! A slot: "34 bytes: k, r, 8 forward bytes, 8 reverse bytes, phi, psi".

pub(crate) const SIZE: usize = 34;

pub(crate) type Slot = [u8; SIZE];

pub(crate) fn k(slot: &Slot) -> usize {
    usize::from(slot[0])
}

pub(crate) fn r(slot: &Slot) -> usize {
    usize::from(slot[1])
}

pub(crate) fn forward(slot: &Slot) -> &[u8] {
    &slot[2..2 + k(slot)]
}

pub(crate) fn reverse(slot: &Slot) -> &[u8] {
    &slot[10..10 + r(slot)]
}

/// The forward commands as one word, first command lowest; unused bytes are
/// zero.
pub(crate) fn forward_word(slot: &Slot) -> u64 {
    word(slot, 2)
}

pub(crate) fn phi(slot: &Slot) -> u64 {
    word(slot, 18)
}

pub(crate) fn psi(slot: &Slot) -> u64 {
    word(slot, 26)
}

/// The bytes of its record in a book, header included.
pub(crate) fn record_size(slot: &Slot) -> usize {
    22 + k(slot) + r(slot)
}

fn word(slot: &Slot, at: usize) -> u64 {
    let mut bytes = [0; 8];
    bytes.copy_from_slice(&slot[at..at + 8]);
    u64::from_le_bytes(bytes)
}
