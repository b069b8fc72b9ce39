//! Chains and plans.

use crate::check::check_book;
use crate::item::{Item, Slot, SLOT};
use crate::read::Lent;
use crate::run::Run;
use crate::{Assembly, Fault, Leg, ITEMS, PLAN, POINTS, RUN, WEIGHTS};

/// The number of a point from which no chain exists.
const NONE: u32 = u32::MAX;

/// Assembles the plan; the legs are bytes, three for each.
pub fn assemble(
    book: &[u8],
    run: &[u8],
    table: &mut [u64],
    slots: &mut [u8],
    weights: &mut [u16],
    plan: &mut [u8],
    legs: &mut [u8],
) -> Assembly {
    let lent = Lent::new(table, slots, weights);
    let legs = legs.as_chunks_mut().0.first_chunk_mut();
    assemble_into(book, run, lent, plan, legs, |leg| {
        [leg.item, leg.upper, leg.lower]
    })
}

/// The same, with legs as structs.
pub fn assemble_legs(
    book: &[u8],
    run: &[u8],
    table: &mut [u64],
    slots: &mut [u8],
    weights: &mut [u16],
    plan: &mut [u8],
    legs: &mut [Leg],
) -> Assembly {
    let lent = Lent::new(table, slots, weights);
    assemble_into(book, run, lent, plan, legs.first_chunk_mut(), |leg| leg)
}

/// Buffers are None where they are shorter than stated.
#[inline]
pub(crate) fn assemble_into<T>(
    book: &[u8],
    run: &[u8],
    lent: Option<Lent>,
    plan: &mut [u8],
    legs: Option<&mut [T; RUN]>,
    put: impl Fn(Leg) -> T,
) -> Assembly {
    let mut answer = Assembly {
        code: 1,
        place: 0,
        commands: 0,
        legs: 0,
        sum: 0,
        fewest: [NONE; POINTS],
    };
    let plan = plan.first_chunk_mut::<PLAN>();
    let (Some(mut lent), Some(plan), Some(legs)) = (lent, plan, legs) else {
        return answer;
    };
    let mut first = [0; POINTS];
    match prepare(book, run, &mut lent, &mut answer.fewest, &mut first) {
        Ok((items, top)) => {
            let (commands, count) = unwind(items, top, &first, plan, legs, put);
            answer.code = 0;
            answer.commands = commands as u64;
            answer.legs = count as u64;
            answer.sum = answer.fewest[top].into();
        }
        Err((code, place)) => {
            answer.code = code;
            answer.place = place as u64;
        }
    }
    answer
}

/// All that comes before plan and legs are written. Gives the items and the run's last point when a
/// chain leads down from there.
fn prepare<'a>(
    book: &[u8],
    run: &[u8],
    lent: &'a mut Lent,
    fewest: &mut [u32; POINTS],
    first: &mut [u8; POINTS],
) -> Result<(&'a [Slot], usize), Fault> {
    let found = check_book(book, lent, &mut 0)?;
    let run = Run::of(run, &found).ok_or((9, 0))?;
    let mut possible = [0; POINTS];
    if !run.possible(lent.table, &found, &mut possible) {
        return Err((10, 0));
    }
    let items = &lent.slots.as_chunks::<SLOT>().0[..found.items];
    chains(items, lent.weights, run.commands, &possible, fewest, first);
    let top = run.commands.len();
    if fewest[top] == NONE {
        return Err((11, 0));
    }
    Ok((items, top))
}

/// For each point the least sum of a chain from it and that chain's first item, from point 0 upward.
/// Items are tried in order and only a lower sum replaces another, so among equals the lower list
/// stays.
fn chains(
    items: &[Slot],
    weights: &[u16; WEIGHTS],
    commands: &[u8],
    possible: &[u64; POINTS],
    fewest: &mut [u32; POINTS],
    first: &mut [u8; POINTS],
) {
    // The items by their last forward command, as lists in rising order; 0 ends a list and all else
    // is one more than the number.
    let (mut lists, mut next) = ([0u8; 32], [0u8; ITEMS]);
    for (number, slot) in items.iter().enumerate().rev() {
        let last = usize::from(slot[1 + usize::from(slot[0] & 15)] & 31);
        next[number] = lists[last];
        lists[last] = number as u8 + 1;
    }

    fewest[0] = 0;
    let mut window = 0; // the last 8 commands, the latest in the top byte
    for (j, &command) in (1..POINTS).zip(commands) {
        window = window >> 8 | u64::from(command) << 56;
        let mut listed = lists[usize::from(command & 31)];
        while listed != 0 {
            let number = usize::from(listed - 1) & (ITEMS - 1);
            listed = next[number];
            let item = Item::of_good_slot(&items[number]);
            if item.k > j || window >> (64 - 8 * item.k) != item.forward {
                continue;
            }
            let lower = j - item.k;
            if possible[j] & !item.phi != 0
                || possible[lower] & !item.psi != 0
                || fewest[lower] == NONE
            {
                continue;
            }
            let mut sum = fewest[lower];
            let mut left = item.reverse;
            for _ in 0..item.r {
                sum += u32::from(weights[left as usize & 31]);
                left >>= 8;
            }
            if sum < fewest[j] {
                fewest[j] = sum;
                first[j] = number as u8;
            }
        }
    }
}

/// Writes the best chain from a point. Gives the counts of commands and legs.
fn unwind<T>(
    items: &[Slot],
    top: usize,
    first: &[u8; POINTS],
    plan: &mut [u8; PLAN],
    legs: &mut [T; RUN],
    put: impl Fn(Leg) -> T,
) -> (usize, usize) {
    let (mut upper, mut commands, mut count) = (top, 0, 0);
    while upper > 0 {
        let item = first[upper];
        let slot = &items[usize::from(item)];
        let (k, r) = (usize::from(slot[0]), usize::from(slot[1]));
        let lower = upper - k;
        plan[commands..commands + r].copy_from_slice(&slot[10..10 + r]);
        legs[count] = put(Leg {
            item,
            upper: upper as u8,
            lower: lower as u8,
        });
        commands += r;
        count += 1;
        upper = lower;
    }
    (commands, count)
}
