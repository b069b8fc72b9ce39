#[cfg(feature = "std")]
use crate::calls;

/// An item: if the forward commands led from a state in psi to one in phi, the others reverse them.
#[derive(Clone, Copy, Debug, PartialEq, Eq)]
pub struct Item<'a> {
    /// 1 to 8 commands.
    pub forward: &'a [u8],
    /// Up to 8 commands.
    pub reverse: &'a [u8],
    /// The states after the forward commands.
    pub phi: u64,
    /// The states before them.
    pub psi: u64,
}

#[cfg(feature = "std")]
impl Item<'_> {
    /// The item's slot. Too many commands leave a count that no item has.
    pub(crate) fn slot(&self) -> [u8; calls::SLOT_LEN] {
        let mut slot = [0; calls::SLOT_LEN];
        slot[0] = u8::try_from(self.forward.len()).unwrap_or(u8::MAX);
        slot[1] = u8::try_from(self.reverse.len()).unwrap_or(u8::MAX);
        for (to, from) in slot[2..10].iter_mut().zip(self.forward) {
            *to = *from;
        }
        for (to, from) in slot[10..18].iter_mut().zip(self.reverse) {
            *to = *from;
        }
        slot[18..26].copy_from_slice(&self.phi.to_le_bytes());
        slot[26..34].copy_from_slice(&self.psi.to_le_bytes());
        slot
    }

    /// The item of a slot that reading has filled.
    pub(crate) fn of(slot: &[u8]) -> Item<'_> {
        let mask = |at| {
            slot[at..]
                .first_chunk()
                .map_or(0, |bytes| u64::from_le_bytes(*bytes))
        };
        Item {
            forward: &slot[2..][..usize::from(slot[0]).min(8)],
            reverse: &slot[10..][..usize::from(slot[1]).min(8)],
            phi: mask(18),
            psi: mask(26),
        }
    }
}
