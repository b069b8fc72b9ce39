//! Sets of at most one state as numbers.

use crate::item::Item;

/// For each command the set after a set of at most one state, both as a number: that of the state,
/// or one of those below.
pub(crate) struct Numbers {
    pub next: [[u8; 256]; 32],
}

/// The empty set.
pub(crate) const EMPTY: u8 = 255;
/// Any set of two states or more.
pub(crate) const MORE: u8 = 254;

impl Numbers {
    pub const NONE: Numbers = Numbers {
        next: [[EMPTY; 256]; 32],
    };

    /// Judges starts as long as none of a start's sets has more than one state, and the item is
    /// right. Gives the starts that are left and whether one of the others has an end in phi. The
    /// first that is left is to be judged again, so that a reverse run stops where it gets stuck.
    #[inline]
    pub fn judge(&self, item: &Item) -> (u64, bool) {
        // Without a test for the end at each command where k = r.
        macro_rules! by_length {
            ($($length:literal)*) => {
                match (item.k, item.r) {
                    $(($length, $length) => {
                        self.judge_by(item, Self::steps::<$length>, Self::steps::<$length>)
                    })*
                    (k, r) => self.judge_by(
                        item,
                        |numbers, commands, set| numbers.any_steps(commands, k, set),
                        |numbers, commands, set| numbers.any_steps(commands, r, set),
                    ),
                }
            };
        }
        by_length!(1 2 3 4 5 6 7 8)
    }

    /// The same with the functions that apply the forward and the reverse commands.
    #[inline(never)]
    fn judge_by(
        &self,
        item: &Item,
        forward: impl Fn(&Self, u64, u8) -> u8,
        reverse: impl Fn(&Self, u64, u8) -> u8,
    ) -> (u64, bool) {
        let (mut left, mut ends) = (item.psi, 0);
        while left != 0 {
            let start = left.trailing_zeros() as u8;
            let end = forward(self, item.forward, start);
            let inside = u8::from(end < 64) & (item.phi >> (end & 63)) as u8;
            // All ones where the end isn't in phi, which makes it the empty set.
            let outside = inside.wrapping_sub(1);
            let back = reverse(self, item.reverse, end | outside);
            if end == MORE || back != start | outside {
                break;
            }
            ends |= inside;
            left &= left - 1;
        }
        (left, ends != 0)
    }

    #[inline(always)]
    fn steps<const COUNT: usize>(&self, commands: u64, set: u8) -> u8 {
        (0..COUNT).fold(set, |set, at| {
            self.next[(commands >> (8 * at)) as usize % 32][usize::from(set)]
        })
    }

    #[inline(always)]
    fn any_steps(&self, commands: u64, count: usize, set: u8) -> u8 {
        let (mut left, mut set) = (commands, set);
        for _ in 0..count {
            set = self.next[left as usize % 32][usize::from(set)];
            left >>= 8;
        }
        set
    }
}
