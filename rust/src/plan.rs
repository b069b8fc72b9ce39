use core::fmt;
use std::string::String;
use std::vec;
use std::vec::Vec;

use crate::calls::{self, Leg};
use crate::lines::lines;
use crate::{size, Fault};

/// The plan that undoes a run. Printed, it is what to send, then a line for each leg.
///
/// ```text
/// send 8 1 9 15
/// item 2 from point 2 to 1: 8 1 9
/// item 0 from point 1 to 0: 15
/// ```
#[derive(Clone, Debug, PartialEq, Eq)]
pub struct Plan {
    commands: Vec<u8>,
    legs: Vec<Leg>,
    /// The number of commands of each leg.
    counts: Vec<usize>,
    sum: u64,
    page: String,
    fewest: [u32; calls::POINTS_LEN],
}

impl Plan {
    /// The commands to send, in order.
    #[must_use]
    pub fn commands(&self) -> &[u8] {
        &self.commands
    }

    /// The items used, from the run's end down to point 0.
    #[must_use]
    pub fn legs(&self) -> &[Leg] {
        &self.legs
    }

    /// The legs, each with its commands.
    pub fn steps(&self) -> impl Iterator<Item = (Leg, &[u8])> {
        let mut rest = self.commands();
        self.legs
            .iter()
            .zip(&self.counts)
            .map(move |(&leg, &count)| {
                let (commands, after) = rest.split_at(count.min(rest.len()));
                rest = after;
                (leg, commands)
            })
    }

    /// The sum of the commands' weights: the plan's air time. No chain that undoes the run has less.
    #[must_use]
    pub fn sum(&self) -> u64 {
        self.sum
    }

    /// The plan on paper, laid out by the library: a line of 40 characters and a newline for each
    /// leg. Right-aligned in each are the leg's number from 1 (3 wide), its upper point (3), lower
    /// point (3), item (4), number of commands (3) and up to 8 commands (3 each); the rest is blank.
    ///
    /// ```text
    ///   1  2  1   2  3  8  1  9
    ///   2  1  0   0  1 15
    /// ```
    #[must_use]
    pub fn page(&self) -> &str {
        &self.page
    }

    /// The least sum of a chain from each point down to 0; [`NONE`](crate::NONE) where no chain exists
    /// or the point is past the run's end.
    #[must_use]
    pub fn fewest(&self) -> &[u32; calls::POINTS_LEN] {
        &self.fewest
    }
}

impl fmt::Display for Plan {
    fn fmt(&self, f: &mut fmt::Formatter<'_>) -> fmt::Result {
        lines(f, &self.commands, self.steps())
    }
}

/// Checks a book and assembles from its items the plan that undoes a run: the chain whose commands'
/// weights have the least sum; among equals, the one with the lower item number at the first
/// difference. Where there is no room for the table see [`plan_small`](crate::plan_small).
///
/// # Errors
/// Codes 2 to 8, 12 and 13: the book is refused. Codes 9 to 11: the bytes are no run of its device,
/// or nothing in the book undoes it.
pub fn plan(book: &[u8], run: &[u8]) -> Result<Plan, Fault> {
    let mut table = vec![0; calls::TABLE_LEN];
    let mut slots = vec![0; calls::SLOTS_LEN];
    let mut weights = vec![0; calls::WEIGHTS_LEN];
    let mut commands = vec![0; calls::PLAN_LEN];
    let mut legs = vec![0; calls::LEGS_LEN];
    let mut page = vec![0; calls::PAGE_LEN];
    let paged = calls::page(
        book,
        run,
        &mut table,
        &mut slots,
        &mut weights,
        &mut commands,
        &mut legs,
        &mut page,
    );
    let r = paged.assembly;
    if r.code != 0 {
        return Err(Fault::new(r.code, r.place, r.fewest, book));
    }
    commands.truncate(size(r.commands));
    let legs: Vec<Leg> = legs
        .chunks_exact(3)
        .take(size(r.legs))
        .map(|leg| Leg {
            item: leg[0],
            upper: leg[1],
            lower: leg[2],
        })
        .collect();
    let count = |leg: &Leg| slots.get(usize::from(leg.item) * calls::SLOT_LEN + 1);
    let counts = legs
        .iter()
        .map(|leg| count(leg).map_or(0, |&r| usize::from(r)))
        .collect();
    Ok(Plan {
        commands,
        legs,
        counts,
        sum: r.sum,
        page: paged.text(&page).unwrap_or_default().into(),
        fewest: r.fewest,
    })
}

/// A run's bytes: the commands that were sent, and before, between and after them the sightings,
/// sets of states. All n bits mean that nothing was heard.
///
/// # Errors
/// Code 9, where it is a run of no device: over 32 commands, a command over 31, or not one sighting
/// more than commands. Whether its commands and states are those of a book's device, [`plan`] judges.
///
/// ```
/// use rollback::Fault;
///
/// let bytes = rollback::run(&[2], &[7, 1])?;
/// assert_eq!(bytes, [18, 0, 4, 0, 1, 2, 7, 0, 0, 0, 0, 0, 0, 0, 1, 0, 0, 0, 0, 0, 0, 0]);
/// assert_eq!(rollback::run(&[2], &[7]), Err(Fault::Run));
/// assert_eq!(rollback::run(&[32], &[7, 1]), Err(Fault::Run));
/// # Ok::<(), Fault>(())
/// ```
pub fn run(commands: &[u8], sightings: &[u64]) -> Result<Vec<u8>, Fault> {
    let i = u8::try_from(commands.len()).map_err(|_| Fault::Run)?;
    if i > 32 || commands.iter().any(|&c| c > 31) || sightings.len() != commands.len() + 1 {
        return Err(Fault::Run);
    }
    let mut bytes = Vec::with_capacity(calls::RUN_LEN);
    bytes.extend((9 + 9 * u16::from(i)).to_le_bytes());
    bytes.extend(4u16.to_le_bytes());
    bytes.push(i);
    bytes.extend(commands);
    for sighting in sightings {
        bytes.extend(sighting.to_le_bytes());
    }
    Ok(bytes)
}
