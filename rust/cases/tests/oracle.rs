//! rollback-plain against a slow program that goes by the words of docs/FORMAT.md:
//! trajectories, histories and chains are listed one by one. A seed whose
//! lists would be too long is skipped.

use rollback_cases::{find_input, input, FindInput, Input};
use rollback_plain::{
    assemble, assemble_legs, assemble_small, check, find, forecast, page, portable, read, ridge,
    write, Assembly, Leg, Lookup,
};
use std::collections::{BTreeMap, BTreeSet};
use std::ops::RangeInclusive;

const SEEDS: u64 = 16_000;

type Set = BTreeSet<usize>;

struct Item {
    place: usize,
    forward: Vec<usize>,
    reverse: Vec<usize>,
    phi: Set,
    psi: Set,
    slot: Vec<u8>,
}

struct Book {
    n: usize,
    m: usize,
    /// By command.
    weights: Vec<usize>,
    /// By state, then command.
    outcomes: Vec<Vec<Set>>,
    items: Vec<Item>,
}

/// What an item is refused with, or 0; the units made; and, up to the start that
/// decides, its starts without an end and its pairs of a start and an end.
struct Judged {
    code: u64,
    units: usize,
    without: usize,
    pairs: usize,
    /// In which of [`EIGHTS`] the item is.
    eights: [bool; EIGHTS.len()],
}

/// Steps left before a seed is given up.
struct Fuel(u64);

impl Fuel {
    fn step(&mut self) -> Option<()> {
        self.0 = self.0.checked_sub(1)?;
        Some(())
    }
}

fn number(bytes: &[u8]) -> u64 {
    bytes
        .iter()
        .rev()
        .fold(0, |value, &byte| value * 256 + u64::from(byte))
}

/// None when the mask has a bit at n or above.
fn set(bytes: &[u8], n: usize) -> Option<Set> {
    let mask = number(bytes);
    let set: Set = (0..64).filter(|s| mask & (1 << s) > 0).collect();
    set.iter().all(|&s| s < n).then_some(set)
}

fn parse(bytes: &[u8]) -> Result<Book, (u64, usize)> {
    let mut book = Book {
        n: 0,
        m: 0,
        weights: vec![],
        outcomes: vec![],
        items: vec![],
    };
    let mut last: Option<usize> = None;
    let mut at = 0;
    let mut records = 0;
    loop {
        if at > 0 && at == bytes.len() {
            return Ok(book);
        }
        if bytes.len() - at < 4 {
            return Err((2, at));
        }
        let length = number(&bytes[at..at + 2]) as usize;
        let kind = number(&bytes[at + 2..at + 4]);
        if bytes.len() - at - 4 < length {
            return Err((2, at));
        }
        let body = &bytes[at + 4..at + 4 + length];
        let in_order = match kind {
            1 => at == 0,
            2 => at > 0 && book.items.is_empty(),
            3 => at > 0,
            5 => records == 1,
            _ => false,
        };
        if !in_order {
            return Err((3, at));
        }
        if kind == 3 && book.items.len() == 64 {
            return Err((7, at));
        }
        if kind == 1 {
            if length != 2 {
                return Err((4, at));
            }
            (book.n, book.m) = (body[0] as usize, body[1] as usize);
            if book.n == 0 || book.n > 64 || book.m == 0 || book.m > 32 {
                return Err((5, at));
            }
            book.outcomes = vec![vec![Set::new(); book.m]; book.n];
            book.weights = vec![1; book.m];
        } else if kind == 5 {
            if length != 2 * book.m {
                return Err((4, at));
            }
            let weights = body.chunks(2).map(|weight| number(weight) as usize);
            book.weights = weights.collect();
            if book
                .weights
                .iter()
                .any(|&weight| weight == 0 || weight > 1000)
            {
                return Err((5, at));
            }
            if book.weights.iter().all(|&weight| weight == 1) {
                return Err((13, at));
            }
        } else if kind == 2 {
            if length != 10 {
                return Err((4, at));
            }
            let (state, command) = (body[0] as usize, body[1] as usize);
            let outcomes = set(&body[2..], book.n).unwrap_or_default();
            if state >= book.n || command >= book.m || outcomes.is_empty() {
                return Err((5, at));
            }
            let entry = state * book.m + command;
            if last.is_some_and(|last| entry <= last) {
                return Err((6, at));
            }
            last = Some(entry);
            book.outcomes[state][command] = outcomes;
        } else {
            if length < 2 {
                return Err((4, at));
            }
            let (k, r) = (body[0] as usize, body[1] as usize);
            if k == 0 || k > 8 || r > 8 {
                return Err((5, at));
            }
            if length != 18 + k + r {
                return Err((4, at));
            }
            let commands: Vec<usize> = body[2..2 + k + r].iter().map(|&c| c as usize).collect();
            let phi = set(&body[2 + k + r..10 + k + r], book.n);
            let psi = set(&body[10 + k + r..], book.n);
            let (Some(phi), Some(psi)) = (phi, psi) else {
                return Err((5, at));
            };
            if commands.iter().any(|&c| c >= book.m) {
                return Err((5, at));
            }
            let mut slot = body[..2 + k].to_vec();
            slot.resize(10, 0);
            slot.extend(&body[2 + k..2 + k + r]);
            slot.resize(18, 0);
            slot.extend(&body[2 + k + r..]);
            let (forward, reverse) = (commands[..k].to_vec(), commands[k..].to_vec());
            book.items.push(Item {
                place: at,
                forward,
                reverse,
                phi,
                psi,
                slot,
            });
        }
        at += 4 + length;
        records += 1;
    }
}

impl Book {
    /// Every execution of the commands, as far as it can go on: how many it
    /// carries out, and the state that it ends in.
    fn executions(
        &self,
        from: usize,
        commands: &[usize],
        fuel: &mut Fuel,
    ) -> Option<Vec<(usize, usize)>> {
        fuel.step()?;
        let Some((&command, rest)) = commands.split_first() else {
            return Some(vec![(0, from)]);
        };
        let mut found = Vec::new();
        for &next in &self.outcomes[from][command] {
            let further = self.executions(next, rest, fuel)?;
            found.extend(further.iter().map(|&(done, last)| (done + 1, last)));
        }
        if found.is_empty() {
            found.push((0, from));
        }
        Some(found)
    }

    /// Lists the starts of an item, each with its ends, up to the first that
    /// does not come back.
    fn judge(&self, item: &Item, fuel: &mut Fuel) -> Option<Judged> {
        let (k, r) = (item.forward.len(), item.reverse.len());
        let mut judged = Judged {
            code: 12,
            units: 0,
            without: 0,
            pairs: 0,
            eights: [false; EIGHTS.len()],
        };
        for &start in &item.psi {
            let forward = self.executions(start, &item.forward, fuel)?;
            let ends: Set = (forward.iter().filter(|&&(done, _)| done == k))
                .map(|&(_, end)| end)
                .filter(|end| item.phi.contains(end))
                .collect();
            let mut back = Vec::new();
            for &end in &ends {
                back.extend(self.executions(end, &item.reverse, fuel)?);
            }
            // The commands that all of them carry out.
            let by_all = back.iter().map(|&(done, _)| done).min().unwrap_or(r);
            let stuck = by_all < r;
            judged.units += k + by_all + usize::from(stuck);
            if stuck || back.iter().any(|&(_, last)| last != start) {
                judged.code = 8;
                judged.eights = [
                    stuck && by_all == 0,
                    stuck && by_all > 0,
                    stuck && back.iter().any(|&(done, _)| done > by_all),
                    !stuck && r > 0,
                    !stuck && r == 0,
                    judged.pairs > 0,
                    judged.without > 0,
                ];
                return Some(judged);
            }
            judged.pairs += ends.len();
            judged.without += usize::from(ends.is_empty());
        }
        if judged.pairs > 0 {
            judged.code = 0;
        }
        Some(judged)
    }

    /// Lists the histories that go on from a path and notes what they have.
    fn histories(
        &self,
        run: &Run,
        path: &mut Vec<usize>,
        seen: &mut [Set],
        fuel: &mut Fuel,
    ) -> Option<()> {
        fuel.step()?;
        let point = path.len();
        if point == run.sightings.len() {
            path.iter()
                .zip(seen)
                .for_each(|(&state, seen)| seen.extend([state]));
            return Some(());
        }
        for &state in &run.sightings[point] {
            if point == 0
                || self.outcomes[path[point - 1]][run.commands[point - 1]].contains(&state)
            {
                path.push(state);
                self.histories(run, path, seen, fuel)?;
                path.pop();
            }
        }
        Some(())
    }
}

struct Run {
    commands: Vec<usize>,
    sightings: Vec<Set>,
}

fn parse_run(bytes: &[u8], book: &Book) -> Option<Run> {
    if bytes.len() < 5
        || number(&bytes[2..4]) != 4
        || number(&bytes[..2]) as usize != bytes.len() - 4
    {
        return None;
    }
    let i = bytes[4] as usize;
    if i > 32 || bytes.len() != 4 + 9 + 9 * i {
        return None;
    }
    let commands: Vec<usize> = bytes[5..5 + i].iter().map(|&c| c as usize).collect();
    let sightings: Option<Vec<Set>> = bytes[5 + i..]
        .chunks(8)
        .map(|mask| set(mask, book.n))
        .collect();
    let sightings = sightings?;
    commands.iter().all(|&c| c < book.m).then_some(Run {
        commands,
        sightings,
    })
}

/// A chain. The least is that with the least sum of weights, then the lower
/// list.
#[derive(Clone, PartialEq, Eq, PartialOrd, Ord)]
struct Chain {
    sum: usize,
    list: Vec<usize>,
    commands: usize,
}

/// Lists every chain from a point.
fn chains(
    book: &Book,
    run: &Run,
    possible: &[Set],
    point: usize,
    list: &mut Vec<usize>,
    found: &mut Vec<Chain>,
    fuel: &mut Fuel,
) -> Option<()> {
    fuel.step()?;
    if point == 0 {
        let plan = list.iter().flat_map(|&item| &book.items[item].reverse);
        found.push(Chain {
            sum: plan.clone().map(|&command| book.weights[command]).sum(),
            list: list.clone(),
            commands: plan.count(),
        });
        return Some(());
    }
    for (number, item) in book.items.iter().enumerate() {
        let k = item.forward.len();
        if k <= point
            && run.commands[point - k..point] == item.forward
            && possible[point].is_subset(&item.phi)
            && possible[point - k].is_subset(&item.psi)
        {
            list.push(number);
            chains(book, run, possible, point - k, list, found, fuel)?;
            list.pop();
        }
    }
    Some(())
}

/// What assembling finds for a run.
struct Planned {
    sum: usize,
    fewest: [u32; 33],
    plan: Vec<u8>,
    legs: Vec<[u8; 3]>,
    page: String,
    /// Every chain from the run's end.
    chains: Vec<Chain>,
}

/// No chain from any point.
const NO_CHAINS: [u32; 33] = [4_294_967_295; 33];

const NOTHING: Planned = Planned {
    sum: 0,
    fewest: NO_CHAINS,
    plan: vec![],
    legs: vec![],
    page: String::new(),
    chains: vec![],
};

/// What is answered where a lent buffer is too short.
const SHORT: Assembly = Assembly {
    code: 1,
    place: 0,
    commands: 0,
    legs: 0,
    sum: 0,
    fewest: NO_CHAINS,
};

/// The code, and what is found, if every item is accepted.
fn planned(book: &Book, run: &[u8], fuel: &mut Fuel) -> Option<(u64, Planned)> {
    let Some(run) = parse_run(run, book) else {
        return Some((9, NOTHING));
    };
    let i = run.commands.len();
    let mut possible = vec![Set::new(); i + 1];
    book.histories(&run, &mut vec![], &mut possible, fuel)?;
    if possible[i].is_empty() {
        return Some((10, NOTHING));
    }
    let mut answer = NOTHING;
    for point in 0..=i {
        let mut found = vec![];
        chains(book, &run, &possible, point, &mut vec![], &mut found, fuel)?;
        if let Some(least) = found.iter().min() {
            answer.fewest[point] = least.sum as u32;
        }
        answer.chains = found;
    }
    let Some(Chain { sum, list, .. }) = answer.chains.iter().min().cloned() else {
        return Some((11, answer));
    };
    answer.sum = sum;
    let mut upper = i;
    for number in list {
        let item = &book.items[number];
        let lower = upper - item.forward.len();
        answer.plan.extend(item.reverse.iter().map(|&c| c as u8));
        answer.legs.push([number as u8, upper as u8, lower as u8]);
        let commands: String = item.reverse.iter().map(|c| format!("{c:3}")).collect();
        let (leg, r) = (answer.legs.len(), item.reverse.len());
        let line = format!("{leg:3}{upper:3}{lower:3}{number:4}{r:3}{commands}");
        answer.page.push_str(&format!("{line:40}\n"));
        upper = lower;
    }
    Some((0, answer))
}

/// What every call on a book must answer, and what it must leave behind.
struct Expected {
    read: [u64; 5],
    check: [u64; 5],
    units: usize,
    /// Code and place.
    assemble: [u64; 2],
    planned: Planned,
    /// Where table, slots and weights are read.
    filled: Option<(Vec<u64>, Vec<u8>, Vec<u16>)>,
    /// In which of [`PLACES`], [`RECORDS`] and [`EIGHTS`] the input is.
    places: [bool; PLACES.len()],
    records: [bool; RECORDS.len()],
    eights: [bool; EIGHTS.len()],
}

/// Items that can never be used: where they stand, and why; items that just can be used; what
/// weights decide; and units where there is no end.
const PLACES: [&str; 15] = [
    "12 alone",
    "12 before 8",
    "8 before 12",
    "12, phi zero",
    "12, psi zero",
    "12, neither zero",
    "12 before 9",
    "12 before 10",
    "12 before 11",
    "a plan by an item with one start that has one end, among other states",
    "a plan with weights",
    "a plan that a chain with fewer commands was given up for",
    "a plan with more commands than a chain of the same sum",
    "a plan with fewer commands than a chain of the same sum",
    "accepted, a start without an end",
];

/// Weights records that are refused, and why.
const RECORDS: [&str; 6] = [
    "13",
    "13 before a later fault",
    "5, a weight, the others 1",
    "4, weights",
    "3, weights first or later",
    "3, a second weights record",
];

/// The item that 8 is for: where the count of its units ends.
const EIGHTS: [&str; 7] = [
    "8, stuck at the first reverse command",
    "8, stuck at a later one",
    "8, stuck where another execution goes on",
    "8, a run ends outside its start",
    "8, the same without reverse commands",
    "8, after a start that comes back",
    "8, after a start without an end",
];

/// What is refused, and where.
fn records(bytes: &[u8], (code, at): (u64, usize)) -> [bool; RECORDS.len()] {
    let weights = |at: usize| bytes.get(at + 2..at + 4) == Some(&[5, 0]);
    let here = weights(at);
    let length = || 4 + number(&bytes[at..at + 2]) as usize;
    let without = || [&bytes[..at], &bytes[at + length()..]].concat();
    let in_body = || bytes[at + 4..at + length()].chunks(2);
    let ones = || in_body().filter(|weight| **weight == [1, 0]).count() + 1 == in_body().len();
    [
        code == 13,
        code == 13 && parse(&without()).is_err(),
        code == 5 && here && in_body().len() > 1 && ones(),
        code == 4 && here,
        code == 3 && here,
        code == 3 && here && at > 6 && weights(6) && at == 10 + number(&bytes[6..8]) as usize,
    ]
}

/// `code` and `planned` are those of the run if every item is accepted.
fn places(book: &Book, judged: &[Judged], code: u64, planned: &Planned) -> [bool; PLACES.len()] {
    let Planned { legs, chains, .. } = planned;
    let first = |code| judged.iter().position(|item| item.code == code);
    let (eight, twelve) = (first(8), first(12));
    let before = |a: Option<usize>, b: Option<usize>| a.is_some_and(|a| b.is_some_and(|b| a < b));
    let refused = twelve.filter(|_| !before(eight, twelve));
    let zero = |of: fn(&Item) -> &Set| refused.map(|at| of(&book.items[at]).is_empty());
    let (phi, psi) = (zero(|item| &item.phi), zero(|item| &item.psi));
    let just_effective = |leg: &[u8; 3]| {
        let at = leg[0] as usize;
        let item = &book.items[at];
        judged[at].pairs == 1 && item.phi.len() > 1 && item.psi.len() > 1
    };
    let accepted = eight.is_none() && twelve.is_none();
    let plan = chains.iter().min().filter(|_| accepted && code == 0);
    let other = |wanted: fn(&Chain, &Chain) -> bool| {
        plan.is_some_and(|plan| chains.iter().any(|chain| wanted(plan, chain)))
    };
    [
        refused.is_some() && eight.is_none(),
        before(twelve, eight),
        before(eight, twelve),
        phi == Some(true),
        psi == Some(true),
        phi == Some(false) && psi == Some(false),
        refused.is_some() && code == 9,
        refused.is_some() && code == 10,
        refused.is_some() && code == 11,
        accepted && legs.iter().any(just_effective),
        plan.is_some_and(|plan| plan.sum != plan.commands),
        other(|plan, chain| plan.sum < chain.sum && plan.commands > chain.commands),
        other(|plan, chain| plan.sum == chain.sum && plan.commands > chain.commands),
        other(|plan, chain| plan.sum == chain.sum && plan.commands < chain.commands),
        accepted && judged.iter().any(|item| item.without > 0),
    ]
}

/// What reading is lent: table, slots and weights.
fn lent(input: &Input) -> (Vec<u64>, Vec<u8>, Vec<u16>) {
    (
        input.table.clone(),
        input.slots.clone(),
        input.weights.clone(),
    )
}

fn expected(input: &Input) -> Option<Expected> {
    let mut fuel = Fuel(60_000);
    let mut answer = Expected {
        read: [0; 5],
        check: [0; 5],
        units: 0,
        assemble: [1, 0],
        planned: NOTHING,
        filled: None,
        places: [false; PLACES.len()],
        records: [false; RECORDS.len()],
        eights: [false; EIGHTS.len()],
    };
    if input.table.len() < 2048 || input.slots.len() < 2176 || input.weights.len() < 32 {
        answer.read[0] = 1;
        answer.check[0] = 1;
        return Some(answer);
    }
    let long_enough = input.plan.len() >= 256 && input.legs.len() >= 96;
    let book = match parse(&input.book) {
        Ok(book) => book,
        Err((code, place)) => {
            answer.read[..2].copy_from_slice(&[code, place as u64]);
            answer.check = answer.read;
            answer.records = records(&input.book, (code, place));
            if long_enough {
                answer.assemble = [code, place as u64];
            }
            return Some(answer);
        }
    };
    let (mut table, mut slots, mut weights) = lent(input);
    for (command, &weight) in book.weights.iter().enumerate() {
        weights[command] = weight as u16;
    }
    for (state, row) in book.outcomes.iter().enumerate() {
        for (command, outcomes) in row.iter().enumerate() {
            table[state * book.m + command] = outcomes.iter().map(|s| 1 << s).sum();
        }
    }
    for (number, item) in book.items.iter().enumerate() {
        slots[34 * number..34 * number + 34].copy_from_slice(&item.slot);
    }
    answer.filled = Some((table, slots, weights));
    answer.read = [0, 0, book.n as u64, book.m as u64, book.items.len() as u64];
    answer.check = answer.read;
    let judged: Option<Vec<Judged>> = (book.items.iter())
        .map(|item| book.judge(item, &mut fuel))
        .collect();
    let judged = judged?;
    let wrong = judged.iter().position(|item| item.code != 0);
    let made = wrong.map_or(&judged[..], |wrong| &judged[..=wrong]);
    answer.units = made.iter().map(|item| item.units).sum();
    if let Some(wrong) = wrong {
        let place = book.items[wrong].place as u64;
        answer.check = [judged[wrong].code, place, 0, 0, 0];
        answer.eights = judged[wrong].eights;
    }
    if !long_enough {
        return Some(answer);
    }
    let (code, planned) = planned(&book, &input.run, &mut fuel)?;
    answer.places = places(&book, &judged, code, &planned);
    if wrong.is_some() {
        answer.assemble.copy_from_slice(&answer.check[..2]);
    } else {
        answer.assemble[0] = code;
        answer.planned = planned;
    }
    Some(answer)
}

/// A buffer with its start replaced.
fn over<T: Clone>(before: &[T], start: &[T]) -> Vec<T> {
    let mut after = before.to_vec();
    after[..start.len()].clone_from_slice(start);
    after
}

#[test]
fn books_and_runs() {
    let mut codes = [0; 14];
    let mut met = [0; PLACES.len() + RECORDS.len() + EIGHTS.len()];
    let (mut skipped, mut two_legs) = (0, 0);
    let (mut short_pages, mut short_scratches) = (0, 0);
    for seed in 0..SEEDS {
        let input = input(seed);
        let Some(expected) = expected(&input) else {
            skipped += 1;
            continue;
        };
        let untouched = lent(&input);
        let filled = expected.filled.as_ref().unwrap_or(&untouched);

        let mut now = untouched.clone();
        let found = read(&input.book, &mut now.0, &mut now.1, &mut now.2);
        let found = [found.code, found.place, found.n, found.m, found.items];
        assert_eq!(found, expected.read, "reading, seed {seed}");
        assert!(now == *filled, "after reading, seed {seed}");

        let mut now = untouched.clone();
        let found = check(&input.book, &mut now.0, &mut now.1, &mut now.2);
        assert_eq!(found.units, expected.units as u64, "units, seed {seed}");
        let found = [found.code, found.place, found.n, found.m, found.items];
        assert_eq!(found, expected.check, "checking, seed {seed}");
        assert!(now == *filled, "after checking, seed {seed}");

        // Assembling with 1 touches nothing.
        let left = if expected.assemble[0] == 1 {
            &untouched
        } else {
            filled
        };
        let mut now = untouched.clone();
        let (mut plan, mut legs) = (input.plan.clone(), input.legs.clone());
        let found = assemble(
            &input.book,
            &input.run,
            &mut now.0,
            &mut now.1,
            &mut now.2,
            &mut plan,
            &mut legs,
        );
        let Planned {
            sum,
            fewest,
            plan: expected_plan,
            legs: leg_list,
            page: expected_page,
            chains: _,
        } = &expected.planned;
        let head = [found.code, found.place];
        assert_eq!(head, expected.assemble, "assembling, seed {seed}");
        let counts = [found.commands as usize, found.legs as usize];
        let expected_counts = [expected_plan.len(), leg_list.len()];
        assert_eq!(counts, expected_counts, "assembling, seed {seed}");
        assert_eq!(found.sum, *sum as u64, "assembling, seed {seed}");
        assert_eq!(found.fewest, *fewest, "assembling, seed {seed}");
        assert!(now == *left, "after assembling, seed {seed}");
        let expected_plan = over(&input.plan, expected_plan);
        assert_eq!(plan, expected_plan, "plan, seed {seed}");
        let expected_legs = over(&input.legs, &leg_list.concat());
        assert_eq!(legs, expected_legs, "legs, seed {seed}");

        let mut now = untouched.clone();
        let mut plan = input.plan.clone();
        let leg = |&[item, upper, lower]: &[u8; 3]| Leg { item, upper, lower };
        let mut legs: Vec<Leg> = input.leg_structs.iter().map(leg).collect();
        let again = assemble_legs(
            &input.book,
            &input.run,
            &mut now.0,
            &mut now.1,
            &mut now.2,
            &mut plan,
            &mut legs,
        );
        assert_eq!(again, found, "leg structs, seed {seed}");
        assert!(now == *left, "leg structs, seed {seed}");
        assert_eq!(plan, expected_plan, "leg structs, seed {seed}");
        let bytes: Vec<[u8; 3]> = legs.iter().map(|l| [l.item, l.upper, l.lower]).collect();
        assert_eq!(
            bytes,
            over(&input.leg_structs, leg_list),
            "leg structs, seed {seed}"
        );

        // With a scratch too, unless it is short itself, or what stands in its place here is.
        let mut scratch = input.scratch.clone();
        let (mut plan, mut legs) = (input.plan.clone(), input.legs.clone());
        let small = assemble_small(&input.book, &input.run, &mut scratch, &mut plan, &mut legs);
        if input.scratch.len() < 64 {
            assert_eq!(small, SHORT, "short scratch, seed {seed}");
            let after = (&plan, &legs);
            let before = (&input.plan, &input.legs);
            assert!(after == before, "short scratch, seed {seed}");
            short_scratches += 1;
        } else if expected.read[0] != 1 {
            assert_eq!(small, found, "scratch, seed {seed}");
            assert_eq!(plan, expected_plan, "scratch, seed {seed}");
            assert_eq!(legs, expected_legs, "scratch, seed {seed}");
        }
        let free = if small.code == 1 { 0 } else { 64 };
        assert!(
            scratch[free..] == input.scratch[free..],
            "after a scratch, seed {seed}"
        );

        // The page answers as assembling does, unless it is short itself.
        let mut now = untouched.clone();
        let (mut plan, mut legs) = (input.plan.clone(), input.legs.clone());
        let mut lines = input.page.clone();
        let paged = page(
            &input.book,
            &input.run,
            &mut now.0,
            &mut now.1,
            &mut now.2,
            &mut plan,
            &mut legs,
            &mut lines,
        );
        if input.page.len() < 1312 {
            assert_eq!(paged.assembly, SHORT, "short page, seed {seed}");
            assert_eq!(paged.length, 0, "short page, seed {seed}");
            let after = (now, plan, legs, lines);
            let before = (untouched, input.plan, input.legs, input.page);
            assert!(after == before, "short page, seed {seed}");
            short_pages += 1;
        } else {
            assert_eq!(paged.assembly, found, "page, seed {seed}");
            assert_eq!(
                paged.length,
                expected_page.len() as u64,
                "page, seed {seed}"
            );
            assert!(now == *left, "after the page, seed {seed}");
            assert_eq!(plan, expected_plan, "page, seed {seed}");
            assert_eq!(legs, expected_legs, "page, seed {seed}");
            let expected_lines = over(&input.page, expected_page.as_bytes());
            assert_eq!(lines, expected_lines, "page, seed {seed}");
        }

        codes[found.code as usize] += 1;
        two_legs += usize::from(found.legs >= 2);
        let Expected {
            places,
            records,
            eights,
            ..
        } = expected;
        let places = places.into_iter().chain(records).chain(eights);
        for (count, is_there) in met.iter_mut().zip(places) {
            *count += usize::from(is_there);
        }
    }
    println!("{SEEDS} seeds, {skipped} skipped, codes {codes:?}, {two_legs} with two legs or more");
    println!("{short_pages} short pages, {short_scratches} short scratches");
    let names = PLACES.iter().chain(&RECORDS).chain(&EIGHTS);
    for (place, count) in names.zip(met) {
        println!("{place}: {count}");
        assert!(count >= 50, "{place}: {count}");
    }
    assert!(skipped < SEEDS / 3, "{skipped} skipped");
    assert!(codes.iter().all(|&count| count >= 100), "{codes:?}");
    assert!(two_legs >= 800, "{two_legs}");
    assert!(short_pages >= 100, "{short_pages}");
    assert!(short_scratches >= 100, "{short_scratches}");
}

/// Code, place, units, plan bytes and legs.
fn expected_forecast(book: &[u8], i: u64) -> [u64; 5] {
    let items = match parse(book) {
        Ok(book) => book.items,
        Err((code, place)) => return [code, place as u64, 0, 0, 0],
    };
    if i > 32 {
        return [9, 0, 0, 0, 0];
    }
    let (mut units, mut largest) = (0, 0);
    for item in &items {
        for _start in &item.psi {
            units += item.forward.len() + item.reverse.len();
        }
        largest = largest.max(item.reverse.len());
    }
    [0, 0, units as u64, i * largest as u64, i]
}

/// Books and numbers of commands that must be among those forecast.
const FORECASTS: [&str; 8] = [
    "32 commands",
    "33 commands",
    "a faulty book and over 32 commands",
    "no items, some commands",
    "a book that 8 is for, with fewer units",
    "a book that 12 is for, with fewer units",
    "a plan with as many bytes as forecast",
    "a plan with as many legs as forecast",
];

#[test]
fn forecasts() {
    let mut codes = [0; 14];
    let mut met = [0; FORECASTS.len()];
    for seed in 0..SEEDS {
        let input = input(seed);
        let ahead = |i| {
            let found = forecast(&input.book, i);
            let [code, place] = [found.code, found.place];
            let found = [code, place, found.units, found.plan_bytes, found.legs];
            let expected = expected_forecast(&input.book, i);
            assert_eq!(found, expected, "seed {seed}, {i} commands");
            found
        };
        let i = input.i;
        let [code, ..] = ahead(i);
        let [reading, _, units, ..] = ahead(0);

        // "equal to the forecast on acceptance, at most the forecast on 8 or 12,
        // 0 on any other refusal"
        let (mut table, mut slots, mut weights) = (vec![0; 2048], vec![0; 2176], vec![0; 32]);
        let checked = check(&input.book, &mut table, &mut slots, &mut weights);
        match checked.code {
            0 => assert_eq!(checked.units, units, "seed {seed}"),
            8 | 12 => assert!(checked.units <= units, "seed {seed}"),
            _ => assert_eq!((checked.units, units), (0, 0), "seed {seed}"),
        }

        // "plan bytes and legs that no run of i commands exceeds"
        let planned = assemble(
            &input.book,
            &input.run,
            &mut table,
            &mut slots,
            &mut weights,
            &mut [0; 256],
            &mut [0; 96],
        );
        let (mut all_bytes, mut all_legs) = (false, false);
        if planned.code == 0 {
            let [_, _, _, plan_bytes, legs] = ahead(u64::from(input.run[4]));
            assert!(planned.commands <= plan_bytes, "seed {seed}");
            assert!(planned.legs <= legs, "seed {seed}");
            all_bytes = plan_bytes > 0 && planned.commands == plan_bytes;
            all_legs = legs > 0 && planned.legs == legs;
        }

        codes[code as usize] += 1;
        let fewer = checked.units < units;
        let is_there = [
            code == 0 && i == 32,
            code == 9 && i == 33,
            reading != 0 && i > 32,
            checked.code == 0 && checked.items == 0 && (1..=32).contains(&i),
            checked.code == 8 && fewer,
            checked.code == 12 && fewer,
            all_bytes,
            all_legs,
        ];
        for (count, is_there) in met.iter_mut().zip(is_there) {
            *count += usize::from(is_there);
        }
    }
    println!("forecasts: codes {codes:?}");
    for (place, count) in FORECASTS.iter().zip(met) {
        println!("{place}: {count}");
        assert!(count >= 50, "{place}: {count}");
    }
    let answered = [0, 2, 3, 4, 5, 6, 7, 9, 13];
    let enough = answered.iter().all(|&code: &usize| codes[code] >= 100);
    assert!(enough, "{codes:?}");
}

/// What finding a reverse must answer: code, place and the reverse; and the table.
struct ExpectedFind {
    code: u64,
    place: usize,
    reverse: Vec<usize>,
    table: Vec<u64>,
    /// What must be met, and whether it is.
    met: Vec<(&'static str, bool)>,
}

/// All reverses of so many commands, the lowest first.
fn reverses(m: usize, count: usize) -> Vec<Vec<usize>> {
    match count {
        0 => vec![vec![]],
        _ => (reverses(m, count - 1).into_iter())
            .flat_map(|start| (0..m).map(move |last| [&start[..], &[last]].concat()))
            .collect(),
    }
}

/// What a reverse is asked for, in terms of a book.
struct Asked<'a> {
    book: &'a Book,
    forward: Vec<usize>,
    phi: Set,
    psi: Set,
}

impl Asked<'_> {
    /// Whether the reverse makes an accepted item, with these starts.
    fn accepts(&self, reverse: &[usize], psi: &Set, fuel: &mut Fuel) -> Option<bool> {
        let item = Item {
            place: 0,
            forward: self.forward.clone(),
            reverse: reverse.to_vec(),
            phi: self.phi.clone(),
            psi: psi.clone(),
            slot: vec![],
        };
        Some(self.book.judge(&item, fuel)?.code == 0)
    }

    /// The first of all reverses from so many to so many commands, with these starts.
    fn first(
        &self,
        counts: RangeInclusive<usize>,
        psi: &Set,
        fuel: &mut Fuel,
    ) -> Option<Option<Vec<usize>>> {
        for reverse in counts.flat_map(|count| reverses(self.book.m, count)) {
            if self.accepts(&reverse, psi, fuel)? {
                return Some(Some(reverse));
            }
        }
        Some(None)
    }

    /// The starts, each with its ends, in phi or not.
    fn ends(&self, fuel: &mut Fuel) -> Option<Vec<(usize, Set)>> {
        let k = self.forward.len();
        let ends = |&start: &usize| {
            let forward = self.book.executions(start, &self.forward, fuel)?;
            let whole = forward.iter().filter(|&&(done, _)| done == k);
            Some((start, whole.map(|&(_, end)| end).collect()))
        };
        self.psi.iter().map(ends).collect()
    }

    /// Reverses below the one that is found. One leads back from all ends but those where it is stuck.
    /// One leads from the ends together to their starts, but not from each to its own.
    fn nearly(
        &self,
        found: Option<&[usize]>,
        fuel: &mut Fuel,
    ) -> Option<Vec<(&'static str, bool)>> {
        let mut starts = self.ends(fuel)?;
        starts.retain(|(_, ends)| !ends.is_disjoint(&self.phi));
        let all: Set = starts.iter().map(|&(start, _)| start).collect();
        let (mut but_stuck, mut together) = (false, false);
        for reverse in (0..=3).flat_map(|count| reverses(self.book.m, count)) {
            if found == Some(&reverse) || starts.is_empty() {
                break;
            }
            let (mut stuck, mut each_arrives, mut each_its_own) = (false, true, true);
            let mut last = Set::new();
            for (start, ends) in &starts {
                let mut back = Set::new();
                for &end in ends.intersection(&self.phi) {
                    for (done, state) in self.book.executions(end, &reverse, fuel)? {
                        if done == reverse.len() {
                            back.insert(state);
                        } else {
                            stuck = true;
                        }
                    }
                }
                each_its_own &= back == Set::from([*start]);
                each_arrives &= !back.is_empty();
                last.extend(back);
            }
            but_stuck |= stuck && each_its_own;
            together |= !stuck && each_arrives && last == all;
        }
        Some(vec![
            ("one that is stuck at some ends, not taken", but_stuck),
            ("one that leads to another start, not taken", together),
        ])
    }

    /// What is met where a reverse is found. The others are looked for where there aren't too many.
    fn met(&self, found: &[usize], fuel: &mut Fuel) -> Option<Vec<(&'static str, bool)>> {
        let Book { n, m, .. } = *self.book;
        let mut others = vec![];
        for reverse in (0..=3).flat_map(|count| reverses(m, count)) {
            if m <= 6 && reverse != found && self.accepts(&reverse, &self.psi, fuel)? {
                others.push(reverse);
            }
        }
        let sum = |reverse: &[usize]| reverse.iter().map(|&c| self.book.weights[c]).sum::<usize>();
        let highest = |command: Option<&usize>| m > 1 && command == Some(&(m - 1));
        let as_many = || others.iter().filter(|other| other.len() == found.len());
        let lower_but_longer = |other: &Vec<usize>| other.len() > found.len() && **other < *found;
        let ends = self.ends(fuel)?;
        let in_phi = || ends.iter().map(|(_, ends)| ends & &self.phi);
        Some(vec![
            ("another of as many commands", as_many().count() > 0),
            (
                "another of as many, with a lower last command",
                as_many().any(|other| other.last() < found.last()),
            ),
            (
                "a longer one, lower at the first difference",
                others.iter().any(lower_but_longer),
            ),
            (
                "another with a lower sum of weights",
                others.iter().any(|other| sum(other) < sum(found)),
            ),
            ("the first command is the highest", highest(found.first())),
            (
                "the last of several commands is the highest",
                found.len() > 1 && highest(found.last()),
            ),
            ("over 12 commands of the device", m > 12),
            ("64 states", n == 64),
            (
                "a start without an end",
                in_phi().any(|ends| ends.is_empty()),
            ),
            (
                "an end outside phi",
                ends.iter().any(|(_, ends)| !ends.is_subset(&self.phi)),
            ),
            ("a start with several ends", in_phi().any(|e| e.len() > 1)),
            (
                "several starts with an end",
                in_phi().filter(|ends| !ends.is_empty()).count() > 1,
            ),
            ("eight forward commands", self.forward.len() == 8),
            ("64 items in the book", self.book.items.len() == 64),
        ])
    }

    /// What is met where there is no reverse.
    fn met_without(&self, fuel: &mut Fuel) -> Option<Vec<(&'static str, bool)>> {
        let mut with_an_end = self.ends(fuel)?;
        with_an_end.retain(|(_, ends)| !ends.is_disjoint(&self.phi));
        let some = !self.phi.is_empty() && !self.psi.is_empty();
        let few = self.book.m <= 5 && !with_an_end.is_empty();
        let mut each = few;
        for (start, _) in with_an_end.iter().filter(|_| few) {
            each = each && self.first(0..=3, &Set::from([*start]), fuel)?.is_some();
        }
        let four = few && self.first(4..=4, &self.psi, fuel)?.is_some();
        Some(vec![
            ("15, phi zero", self.phi.is_empty()),
            ("15, psi zero", self.psi.is_empty()),
            (
                "15, neither zero, no start with an end",
                some && with_an_end.is_empty(),
            ),
            ("15, each start by itself has a reverse", each),
            ("15, four commands would do", four),
        ])
    }
}

/// None when the lists would be too long.
fn expected_find(input: &FindInput) -> Option<ExpectedFind> {
    let mut fuel = Fuel(150_000);
    let mut answer = ExpectedFind {
        code: 1,
        place: 0,
        reverse: vec![],
        table: input.table.clone(),
        met: vec![],
    };
    let k = input.forward.len();
    if input.table.len() < 2048 {
        return Some(answer);
    }
    let book = match parse(&input.book) {
        Ok(book) => book,
        Err((code, place)) => {
            (answer.code, answer.place) = (code, place);
            let is_14 = k == 0 || k > 8 || input.forward.iter().any(|&c| c >= 32);
            answer.met = vec![("a faulty book before 14", is_14)];
            return Some(answer);
        }
    };
    for (state, row) in book.outcomes.iter().enumerate() {
        for (command, outcomes) in row.iter().enumerate() {
            answer.table[state * book.m + command] = outcomes.iter().map(|s| 1 << s).sum();
        }
    }
    let forward: Vec<usize> = input.forward.iter().map(|&c| c as usize).collect();
    let [phi, psi] = [input.phi, input.psi].map(|mask| set(&mask.to_le_bytes(), book.n));
    let not_held = [
        ("14, no forward command", k == 0),
        ("14, over 8 forward commands", k > 8),
        (
            "14, a forward command",
            forward.iter().any(|&c| c >= book.m),
        ),
        ("14, phi", phi.is_none()),
        ("14, psi", psi.is_none()),
    ];
    let is_14 = not_held.iter().any(|&(_, is_so)| is_so);
    for item in &book.items {
        let code = book.judge(item, &mut fuel)?.code;
        if code != 0 {
            (answer.code, answer.place) = (code, item.place);
            answer.met = vec![
                ("8 before 14", code == 8 && is_14),
                ("12 before 14", code == 12 && is_14),
            ];
            return Some(answer);
        }
    }
    let (Some(phi), Some(psi), false) = (phi, psi, is_14) else {
        answer.code = 14;
        answer.met = not_held.to_vec();
        return Some(answer);
    };

    let asked = Asked {
        book: &book,
        forward,
        phi,
        psi,
    };
    let found = asked.first(0..=3, &asked.psi, &mut fuel)?;
    (answer.code, answer.met) = match &found {
        Some(reverse) => (0, asked.met(reverse, &mut fuel)?),
        None => (15, asked.met_without(&mut fuel)?),
    };
    if book.m <= 6 {
        answer
            .met
            .extend(asked.nearly(found.as_deref(), &mut fuel)?);
    }
    let longer = found.is_some() && input.table.len() > 2048;
    answer.met.push(("a longer table", longer));
    answer.reverse = found.unwrap_or_default();
    Some(answer)
}

#[test]
fn finds() {
    let (mut codes, mut counts) = ([0; 16], [0; 4]);
    let mut met: BTreeMap<&str, usize> = BTreeMap::new();
    let mut skipped = 0;
    for seed in 0..SEEDS {
        let input = find_input(seed);
        let Some(expected) = expected_find(&input) else {
            skipped += 1;
            continue;
        };
        let mut table = input.table.clone();
        let (forward, phi, psi) = (&input.forward, input.phi, input.psi);
        let found = find(&input.book, forward, phi, psi, &mut table);
        let head = (found.code, found.place as usize, found.count as usize);
        let expected_head = (expected.code, expected.place, expected.reverse.len());
        assert_eq!(head, expected_head, "seed {seed}");
        let commands = found.commands.map(usize::from);
        let expected_commands = over(&[0; 3], &expected.reverse);
        assert_eq!(commands[..], expected_commands, "seed {seed}");
        assert!(table == expected.table, "table, seed {seed}");

        codes[found.code as usize] += 1;
        counts[found.count as usize] += usize::from(found.code == 0);
        for (place, is_there) in expected.met {
            *met.entry(place).or_default() += usize::from(is_there);
        }
    }
    println!("{SEEDS} seeds, {skipped} skipped, codes {codes:?}, by number of commands {counts:?}");
    assert_eq!(met.len(), 30);
    for (place, count) in met {
        println!("{place}: {count}");
        assert!(count >= 50, "{place}: {count}");
    }
    assert!(skipped < SEEDS / 3, "{skipped} skipped");
    assert!(counts.iter().all(|&count| count >= 500), "{counts:?}");
    let answered = [0, 1, 2, 3, 4, 5, 6, 7, 8, 12, 13, 14, 15];
    let enough = answered.iter().all(|&code: &usize| codes[code] >= 50);
    assert!(enough, "{codes:?}");
}

fn expected_writing(input: &Input) -> (u64, u64, Vec<u8>) {
    let refused = |code, place| (code, place as u64, vec![]);
    if input.write_table.len() < 2048
        || input.write_slots.len() < 2176
        || input.write_weights.len() < 32
        || input.out.len() < 31_178
    {
        return refused(1, 0);
    }
    if input.n < 1 || input.n > 64 || input.m < 1 || input.m > 32 {
        return refused(5, 0);
    }
    if input.items > 64 {
        return refused(7, 0);
    }
    let (n, m) = (input.n as usize, input.m as usize);
    let mut book = vec![2, 0, 1, 0, n as u8, m as u8];
    let mut record = vec![2 * m as u8, 0, 5, 0];
    for command in 0..m {
        let weight = input.write_weights[command];
        if weight == 0 || weight > 1000 {
            return refused(5, command);
        }
        record.extend([(weight % 256) as u8, (weight / 256) as u8]);
    }
    if record[4..] != [1, 0].repeat(m) {
        book.extend(record);
    }
    for state in 0..n {
        for command in 0..m {
            let entry = state * m + command;
            let mask = input.write_table[entry];
            if (n..64).any(|bit| mask >> bit & 1 == 1) {
                return refused(5, entry);
            }
            if mask != 0 {
                book.extend([10, 0, 2, 0, state as u8, command as u8]);
                book.extend(mask.to_le_bytes());
            }
        }
    }
    for number in 0..input.items as usize {
        let slot = &input.write_slots[34 * number..][..34];
        let (k, r) = (slot[0] as usize, slot[1] as usize);
        if !(1..=8).contains(&k) || r > 8 {
            return refused(5, number);
        }
        for at in 0..8 {
            let fine = |byte: u8, used| if used { (byte as usize) < m } else { byte == 0 };
            if !fine(slot[2 + at], at < k) || !fine(slot[10 + at], at < r) {
                return refused(5, number);
            }
        }
        if set(&slot[18..26], n).is_none() || set(&slot[26..], n).is_none() {
            return refused(5, number);
        }
        book.extend([(18 + k + r) as u8, 0, 3, 0]);
        book.extend([&slot[..2], &slot[2..2 + k], &slot[10..10 + r], &slot[18..]].concat());
    }
    (0, 0, book)
}

fn expected_lookup(masks: &[u64], commands: u64, (state, command): (u64, u64)) -> Lookup {
    let states = masks.len() as u64 / commands;
    let (code, mask) = if state < states && command < commands {
        (0, masks[(state * commands + command) as usize])
    } else {
        (5, 0)
    };
    Lookup {
        code,
        place: 0,
        mask,
    }
}

#[test]
fn writing_and_lookups() {
    let masks = rollback_cases::masks();
    let mut codes = [0; 12];
    for seed in 0..SEEDS {
        let input = input(seed);
        let (code, place, book) = expected_writing(&input);
        let mut out = input.out.clone();
        let found = write(
            input.n,
            input.m,
            input.items,
            &input.write_table,
            &input.write_slots,
            &input.write_weights,
            &mut out,
        );
        let head = (found.code, found.place, found.length);
        assert_eq!(head, (code, place, book.len() as u64), "seed {seed}");
        assert!(out == over(&input.out, &book), "output, seed {seed}");
        codes[code as usize] += 1;

        let expected = expected_lookup(&masks.ridge, 16, input.ridge);
        let (state, command) = input.ridge;
        assert_eq!(ridge(state, command), expected, "ridge, seed {seed}");

        let expected = expected_lookup(&masks.portable, 12, input.portable);
        let (state, command) = input.portable;
        assert_eq!(portable(state, command), expected, "portable, seed {seed}");
    }
    println!("writing: codes {codes:?}");
    assert!(
        [0, 1, 5, 7].iter().all(|&code: &usize| codes[code] >= 100),
        "{codes:?}"
    );
}
