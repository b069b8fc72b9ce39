//! Assembling with little memory left: the book is read as needed.

use crate::assemble::NONE;
use crate::read::{record, survey, ITEM, MOVE, WEIGHTS_RECORD};
use crate::run::{self, Run};
use crate::sets::states;
use crate::{Assembly, Fault, PLAN, POINTS, RUN};

/// Most states of a device, and masks of a lent scratch.
const STATES: usize = 64;

/// The outcomes of one command, by state. The scratch is nothing else.
type Outcomes = [u64; STATES];

/// An item as it stands in a book.
struct Item<'a> {
    place: usize,
    forward: &'a [u8],
    reverse: &'a [u8],
    phi: u64,
    psi: u64,
}

/// Assembles the plan "with a scratch of 64 masks in place of the table, slots
/// and weights"; the legs are bytes, three for each. Result, plan and legs are
/// those of `assemble`.
pub fn assemble_small(
    book: &[u8],
    run: &[u8],
    scratch: &mut [u64],
    plan: &mut [u8],
    legs: &mut [u8],
) -> Assembly {
    let mut answer = Assembly {
        code: 0,
        place: 0,
        commands: 0,
        legs: 0,
        sum: 0,
        fewest: [NONE; POINTS],
    };
    if let Err(fault) = work_out(book, run, scratch, plan, legs, &mut answer) {
        (answer.code, answer.place) = (fault.code, fault.place);
    }
    answer
}

/// Counts and sum are left alone on a refusal, and the 33 numbers too except
/// on 11.
fn work_out(
    book: &[u8],
    run: &[u8],
    scratch: &mut [u64],
    plan: &mut [u8],
    legs: &mut [u8],
    answer: &mut Assembly,
) -> Result<(), Fault> {
    // Of a longer scratch the rest is not used.
    let scratch: &mut Outcomes = scratch.first_chunk_mut().ok_or(Fault::new(1, 0))?;
    if plan.len() < PLAN || legs.len() < 3 * RUN {
        return Err(Fault::new(1, 0));
    }
    let found = survey(book, |_| ())?;
    for item in items(book) {
        judge(book, &item, scratch).map_err(|code| Fault::new(code, item.place))?;
    }
    let run = run::parse(run, found.n, found.m).ok_or(Fault::new(9, 0))?;
    let possible = possible(book, &run, scratch).ok_or(Fault::new(10, 0))?;

    // Upward: the least sums. There is no lower sum than that of a first item
    // and the least from its lower point on; from no chain on there is none.
    let fewest = &mut answer.fewest;
    fewest[0] = 0;
    let top = run.commands.len();
    for upper in 1..=top {
        fewest[upper] = fitting(book, run.commands, &possible, upper)
            .map(|(_, item, lower)| fewest[lower].saturating_add(sum(book, &item)))
            .min()
            .unwrap_or(NONE);
    }
    if fewest[top] == NONE {
        return Err(Fault::new(11, 0));
    }
    answer.sum = fewest[top].into();

    // Downward: "the list of item numbers that is lower at the first
    // difference" has, at each point, the lowest item that a chain of the least
    // sum begins with. No item fits from point 0.
    let (mut upper, mut commands, mut count) = (top, 0, 0);
    while let Some((number, item, lower)) = fitting(book, run.commands, &possible, upper)
        .find(|(_, item, lower)| fewest[*lower].saturating_add(sum(book, item)) == fewest[upper])
    {
        for &command in item.reverse {
            plan[commands] = command;
            commands += 1;
        }
        legs[3 * count] = number;
        legs[3 * count + 1] = upper as u8;
        legs[3 * count + 2] = lower as u8;
        count += 1;
        upper = lower;
    }
    answer.commands = commands as u64;
    answer.legs = count as u64;
    Ok(())
}

// The book's records. `survey` has passed it.

/// Place, kind and body of each.
fn records(book: &[u8]) -> impl Iterator<Item = (usize, u16, &[u8])> {
    let mut next = 0;
    std::iter::from_fn(move || {
        let at = next;
        let (kind, body) = record(book, at).ok()?;
        next += 4 + body.len();
        Some((at, kind, body))
    })
}

fn items(book: &[u8]) -> impl Iterator<Item = Item<'_>> {
    records(book)
        .filter(|&(_, kind, _)| kind == ITEM)
        .map(|(place, _, body)| {
            let (k, r) = (usize::from(body[0]), usize::from(body[1]));
            let (forward, rest) = body[2..].split_at(k);
            let (reverse, masks) = rest.split_at(r);
            let (phi, psi) = masks.split_at(8);
            Item {
                place,
                forward,
                reverse,
                phi: mask(phi),
                psi: mask(psi),
            }
        })
}

/// Finds the outcomes of a command among the moves. "Pairs not written have no
/// outcomes".
fn look_up<'a>(book: &[u8], command: u8, scratch: &'a mut Outcomes) -> &'a Outcomes {
    scratch.fill(0);
    for (_, kind, body) in records(book) {
        if kind == MOVE && body[1] == command {
            scratch[usize::from(body[0])] = mask(&body[2..]);
        }
    }
    scratch
}

/// The sum of the weights of an item's reverse commands.
fn sum(book: &[u8], item: &Item) -> u32 {
    let weight = |&command: &u8| match records(book).nth(1) {
        Some((_, WEIGHTS_RECORD, body)) => {
            let at = 2 * usize::from(command);
            u32::from(body[at]) + 256 * u32::from(body[at + 1])
        }
        // "Without it every weight is 1."
        _ => 1,
    };
    item.reverse.iter().map(weight).sum()
}

/// Eight bytes, the lowest first.
fn mask(bytes: &[u8]) -> u64 {
    bytes
        .iter()
        .rev()
        .fold(0, |mask, &byte| mask << 8 | u64::from(byte))
}

// What commands do.

/// The union of the outcomes over a set.
fn after(outcomes: &Outcomes, set: u64) -> u64 {
    states(set).fold(0, |union, s| union | outcomes[s])
}

/// Gives 8 for an item that is no conditional reverse plan, and 12 for one that
/// is, but not an effective one. Each command is looked up once, for all starts.
fn judge(book: &[u8], item: &Item, scratch: &mut Outcomes) -> Result<(), u64> {
    // Where each start in psi may have come to; nowhere for any other state.
    let mut sets: [u64; STATES] = std::array::from_fn(|start| item.psi & 1 << start);
    for &command in item.forward {
        let outcomes = look_up(book, command, scratch);
        sets = sets.map(|set| after(outcomes, set));
    }
    sets = sets.map(|set| set & item.phi);
    // "at least one start in psi must reach an end in phi"; without an end
    // nothing is asked of the reverse commands.
    if sets.iter().all(|&set| set == 0) {
        return Err(12);
    }
    for &command in item.reverse {
        let outcomes = look_up(book, command, scratch);
        // "a next command that every state of the set can carry out"
        let stuck = |&set: &u64| states(set).any(|s| outcomes[s] == 0);
        if sets.iter().any(stuck) {
            return Err(8);
        }
        sets = sets.map(|set| after(outcomes, set));
    }
    // "no command left and S alone in the set", unless S has no end.
    for (start, &set) in sets.iter().enumerate() {
        if set != 0 && set != 1 << start {
            return Err(8);
        }
    }
    Ok(())
}

/// The possible states at each point: "those that some history has there".
/// None when there is no history.
fn possible(book: &[u8], run: &Run, scratch: &mut Outcomes) -> Option<[u64; POINTS]> {
    let mut at = run.sightings;
    let top = run.commands.len();
    // Upward: the states that a history may have come to.
    for j in 0..top {
        let outcomes = look_up(book, run.commands[j], scratch);
        at[j + 1] &= after(outcomes, at[j]);
    }
    // Downward: those of them that it goes on from.
    for j in (0..top).rev() {
        let outcomes = look_up(book, run.commands[j], scratch);
        for s in states(at[j]) {
            if outcomes[s] & at[j + 1] == 0 {
                at[j] &= !(1 << s);
            }
        }
    }
    // A history has a state at every point.
    (at[0] != 0).then_some(at)
}

/// The items that fit from a point, lowest first: number, item, lower point.
fn fitting<'a>(
    book: &'a [u8],
    commands: &'a [u8],
    possible: &'a [u64; POINTS],
    upper: usize,
) -> impl Iterator<Item = (u8, Item<'a>, usize)> {
    (0..).zip(items(book)).filter_map(move |(number, item)| {
        let lower = upper.checked_sub(item.forward.len())?;
        let fits = commands[lower..upper] == *item.forward
            && possible[upper] & !item.phi == 0
            && possible[lower] & !item.psi == 0;
        fits.then_some((number, item, lower))
    })
}
