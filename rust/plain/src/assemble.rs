//! Chains and plans.

use crate::read::{check_book, used};
use crate::slot::{self, Slot};
use crate::{run, Assembly, Fault, Leg, Lent, ITEMS, PLAN, POINTS, RUN};

/// The number of a point from which no chain exists.
pub(crate) const NONE: u32 = u32::MAX;

/// Assembles the plan; the legs are bytes, three for each.
pub fn assemble(
    book: &[u8],
    run: &[u8],
    table: &mut [u64],
    slots: &mut [u8],
    weights: &mut [u16],
    plan: &mut [u8],
    legs: &mut [u8],
) -> Assembly {
    let long_enough = plan.len() >= PLAN && legs.len() >= 3 * RUN;
    let lent = Lent {
        table,
        slots,
        weights,
    };
    assemble_into(book, run, lent, plan, long_enough, as_bytes(legs))
}

/// The same, with legs as structs.
pub fn assemble_legs(
    book: &[u8],
    run: &[u8],
    table: &mut [u64],
    slots: &mut [u8],
    weights: &mut [u16],
    plan: &mut [u8],
    legs: &mut [Leg],
) -> Assembly {
    let long_enough = plan.len() >= PLAN && legs.len() >= RUN;
    let lent = Lent {
        table,
        slots,
        weights,
    };
    assemble_into(book, run, lent, plan, long_enough, |at, leg| legs[at] = leg)
}

/// Puts legs as bytes.
pub(crate) fn as_bytes(legs: &mut [u8]) -> impl FnMut(usize, Leg) + '_ {
    |at, leg| {
        legs[3 * at..3 * at + 3].copy_from_slice(&[leg.item, leg.upper, leg.lower]);
    }
}

/// `long_enough` says it of plan and legs, and of the page where there is one.
pub(crate) fn assemble_into(
    book: &[u8],
    run: &[u8],
    lent: Lent,
    plan: &mut [u8],
    long_enough: bool,
    put: impl FnMut(usize, Leg),
) -> Assembly {
    let mut chains = Chains {
        fewest: [NONE; POINTS],
        first: [0; POINTS],
    };
    let result = prepare(book, run, lent, long_enough, &mut chains);
    let (fault, commands, legs, sum) = match result {
        Ok((items, top)) => {
            let (commands, legs) = chains.unwind(items, top, plan, put);
            (Fault::new(0, 0), commands, legs, chains.fewest[top])
        }
        Err(fault) => (fault, 0, 0, 0),
    };
    Assembly {
        code: fault.code,
        place: fault.place,
        commands: commands as u64,
        legs: legs as u64,
        sum: sum.into(),
        fewest: chains.fewest,
    }
}

/// All that comes before plan and legs are written. Gives the items and the
/// run's last point when a chain leads down from there.
fn prepare<'a>(
    book: &[u8],
    run: &[u8],
    mut lent: Lent<'a>,
    long_enough: bool,
    chains: &mut Chains,
) -> Result<(&'a [Slot], usize), Fault> {
    if !long_enough {
        return Err(Fault::new(1, 0));
    }
    let found = check_book(book, &mut lent, &mut 0)?;
    let Lent {
        table,
        slots,
        weights,
    } = lent;
    let items = used(slots, found.items);
    let run = run::parse(run, found.n, found.m).ok_or(Fault::new(9, 0))?;
    let possible = run.possible(table, found.m).ok_or(Fault::new(10, 0))?;
    chains.find(items, weights, run.commands, &possible);
    let top = run.commands.len();
    if chains.fewest[top] == NONE {
        return Err(Fault::new(11, 0));
    }
    Ok((items, top))
}

/// For each point the least sum of a chain from it, and that chain's first
/// item.
struct Chains {
    fewest: [u32; POINTS],
    first: [u8; POINTS],
}

impl Chains {
    /// Goes from point 0 upward. Items are tried in order and only a lower sum
    /// replaces another, so among equals the lower list stays: chains with the
    /// same first item share its lower point.
    fn find(&mut self, items: &[Slot], weights: &[u16], commands: &[u8], possible: &[u64; POINTS]) {
        let mut sums = [0; ITEMS];
        for (sum, slot) in sums.iter_mut().zip(items) {
            *sum = (slot::reverse(slot).iter())
                .map(|&command| u32::from(weights[usize::from(command)]))
                .sum();
        }
        self.fewest[0] = 0;
        let mut last = 0; // the last 8 commands, the latest in the top byte
        for (j, &command) in (1..).zip(commands) {
            last = last >> 8 | u64::from(command) << 56;
            for (number, (slot, &sum)) in (0..).zip(items.iter().zip(&sums)) {
                let k = slot::k(slot);
                if k > j || last >> (64 - 8 * k) != slot::forward_word(slot) {
                    continue;
                }
                let lower = j - k;
                let below = self.fewest[lower];
                if below != NONE
                    && below + sum < self.fewest[j]
                    && possible[j] & !slot::phi(slot) == 0
                    && possible[lower] & !slot::psi(slot) == 0
                {
                    self.fewest[j] = below + sum;
                    self.first[j] = number;
                }
            }
        }
    }

    /// Writes the best chain from a point. Gives its counts.
    fn unwind(
        &self,
        items: &[Slot],
        top: usize,
        plan: &mut [u8],
        mut put: impl FnMut(usize, Leg),
    ) -> (usize, usize) {
        let (mut upper, mut commands, mut legs) = (top, 0, 0);
        while upper > 0 {
            let item = self.first[upper];
            let slot = &items[usize::from(item)];
            let lower = upper - slot::k(slot);
            let reverse = slot::reverse(slot);
            plan[commands..commands + reverse.len()].copy_from_slice(reverse);
            put(
                legs,
                Leg {
                    item,
                    upper: upper as u8,
                    lower: lower as u8,
                },
            );
            commands += reverse.len();
            legs += 1;
            upper = lower;
        }
        (commands, legs)
    }
}
