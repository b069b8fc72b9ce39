use core::fmt;

use crate::calls::{self, Leg};
use crate::lines::lines;
use crate::{size, Fault};

/// The plan that undoes a run, in the buffers that were lent to [`plan_small`]. Printed, it is what
/// to send, then a line for each leg.
///
/// ```text
/// send 8 1 9 15
/// item 2 from point 2 to 1: 8 1 9
/// item 0 from point 1 to 0: 15
/// ```
#[derive(Clone, Copy, Debug, PartialEq, Eq)]
pub struct SmallPlan<'a> {
    book: &'a [u8],
    commands: &'a [u8],
    /// Three bytes each.
    legs: &'a [u8],
    sum: u64,
    fewest: [u32; calls::POINTS_LEN],
}

impl<'a> SmallPlan<'a> {
    /// The commands to send, in order.
    #[must_use]
    pub fn commands(&self) -> &'a [u8] {
        self.commands
    }

    /// The items used, from the run's end down to point 0.
    #[must_use]
    pub fn legs(&self) -> impl ExactSizeIterator<Item = Leg> + 'a {
        self.legs.chunks_exact(3).map(|leg| Leg {
            item: leg[0],
            upper: leg[1],
            lower: leg[2],
        })
    }

    /// The legs, each with its commands. How many each has is read from the book.
    pub fn steps(&self) -> impl Iterator<Item = (Leg, &'a [u8])> {
        let (book, mut rest) = (self.book, self.commands);
        self.legs().map(move |leg| {
            let count = reverse_count(book, leg.item);
            let (commands, after) = rest.split_at(count.min(rest.len()));
            rest = after;
            (leg, commands)
        })
    }

    /// The sum of the commands' weights: the plan's air time. No chain that undoes the run has less.
    #[must_use]
    pub fn sum(&self) -> u64 {
        self.sum
    }

    /// The least sum of a chain from each point down to 0; [`NONE`](crate::NONE) where no chain exists
    /// or the point is past the run's end.
    #[must_use]
    pub fn fewest(&self) -> &[u32; calls::POINTS_LEN] {
        &self.fewest
    }
}

impl fmt::Display for SmallPlan<'_> {
    fn fmt(&self, f: &mut fmt::Formatter<'_>) -> fmt::Result {
        lines(f, self.commands, self.steps())
    }
}

/// The number of reverse commands of an item of an accepted book: the second byte of its record's
/// body.
fn reverse_count(book: &[u8], item: u8) -> usize {
    let mut before = item;
    let mut rest = book;
    while let Some(&[low, high, kind, _, _, r]) = rest.first_chunk() {
        if kind == 3 && before == 0 {
            return r.into();
        }
        before -= u8::from(kind == 3);
        let length = 4 + usize::from(u16::from_le_bytes([low, high]));
        rest = rest.get(length..).unwrap_or_default();
    }
    0
}

/// The plan that `plan` gives, where there is no room for the table: the book is checked and read as
/// needed, with 64 masks for the work, and nothing is allocated. It may take longer.
///
/// What the scratch holds before means nothing, nor does what it holds afterwards. Plan and legs stay
/// as they were on a fault.
///
/// # Errors
/// Codes 2 to 8, 12 and 13: the book is refused. Codes 9 to 11: the bytes are no run of its device,
/// or nothing in the book undoes it.
///
/// ```
/// use rollback::calls::{LEGS_LEN, PLAN_LEN, SCRATCH_LEN};
///
/// // A switch: command 0 turns it off, command 1 on. "Off" undoes "on" if it was off before.
/// let item = rollback::Item { forward: &[1], reverse: &[0], phi: 0b11, psi: 0b01 };
/// let book = rollback::write(2, 2, &[0b01, 0b10, 0b01, 0b10], &[item], &[5, 3])?;
/// let run = rollback::run(&[1], &[0b01, 0b11])?;
///
/// let mut scratch = [0; SCRATCH_LEN];
/// let (mut plan, mut legs) = ([0; PLAN_LEN], [0; LEGS_LEN]);
/// let plan = rollback::plan_small(&book, &run, &mut scratch, &mut plan, &mut legs)?;
/// assert_eq!(plan.commands(), [0]);
/// assert_eq!(plan.sum(), 5);
/// assert_eq!(plan.to_string(), rollback::plan(&book, &run)?.to_string());
/// # Ok::<(), Box<dyn std::error::Error>>(())
/// ```
pub fn plan_small<'a>(
    book: &'a [u8],
    run: &[u8],
    scratch: &mut [u64; calls::SCRATCH_LEN],
    plan: &'a mut [u8; calls::PLAN_LEN],
    legs: &'a mut [u8; calls::LEGS_LEN],
) -> Result<SmallPlan<'a>, Fault> {
    let r = calls::assemble_small(book, run, scratch, plan, legs);
    if r.code != 0 {
        return Err(Fault::new(r.code, r.place, r.fewest, book));
    }
    Ok(SmallPlan {
        book,
        commands: &plan[..size(r.commands).min(calls::PLAN_LEN)],
        legs: &legs[..size(r.legs).saturating_mul(3).min(calls::LEGS_LEN)],
        sum: r.sum,
        fewest: r.fewest,
    })
}
