//! Random inputs for comparing two programs: one seed, one input. Each input
//! serves every call; its parts are independent enough that each call sees
//! all its codes often. Finding a reverse has inputs of its own.

use std::env;

use crate::books::permutations;
use crate::device::{
    all, book_records, item_record, move_record, record, ridge_device, run_bytes, slot_bytes,
    states, weights_record, Device, Item,
};
use crate::rng::Rng;

/// What one seed gives to every call but finding a reverse.
#[derive(Clone, Debug, PartialEq, Eq)]
pub struct Input {
    pub seed: u64,

    /// For reading, checking and assembling.
    pub book: Vec<u8>,
    pub run: Vec<u8>,
    /// The lent buffers and what they hold before the call. Their lengths are
    /// those stated, or longer, or one of them too short.
    pub table: Vec<u64>,
    pub slots: Vec<u8>,
    pub weights: Vec<u16>,
    pub plan: Vec<u8>,
    pub legs: Vec<u8>,
    /// The legs where they are structs: item, upper, lower.
    pub leg_structs: Vec<[u8; 3]>,
    /// For the page besides.
    pub page: Vec<u8>,
    /// For a forecast, with the book: how many commands a run may have.
    pub i: u64,
    /// For assembling with a scratch, in the place of table, slots and weights. It is too short now
    /// and then, whatever the other buffers are.
    pub scratch: Vec<u64>,

    /// For writing.
    pub n: u64,
    pub m: u64,
    pub items: u64,
    pub write_table: Vec<u64>,
    pub write_slots: Vec<u8>,
    pub write_weights: Vec<u16>,
    pub out: Vec<u8>,

    /// For the lookups: a state and a command.
    pub ridge: (u64, u64),
    pub portable: (u64, u64),
}

/// What one seed gives to finding a reverse.
#[derive(Clone, Debug, PartialEq, Eq)]
pub struct FindInput {
    pub seed: u64,
    pub book: Vec<u8>,
    pub forward: Vec<u8>,
    pub phi: u64,
    pub psi: u64,
    /// The lent table and what it holds before the call. Its length is that stated, or longer, or too
    /// short.
    pub table: Vec<u64>,
}

/// The number in an environment variable, or the usual one: the first seed, how many inputs.
pub fn number_from_env(name: &str, usual: u64) -> u64 {
    env::var(name).map_or(usual, |value| value.parse().expect(name))
}

/// The input of a seed, the same each time.
pub fn input(seed: u64) -> Input {
    let rng = &mut Rng::new(seed);
    let largest = rng.below(150) == 0;
    let mut device = if largest {
        permutations(rng, 64, 32)
    } else {
        random_device(rng)
    };
    let length = match rng.below(100) {
        0..=4 => 0,
        5..=34 => rng.within(1, 4),
        35..=69 => rng.within(5, 12),
        70..=89 => rng.within(13, 31),
        _ => 32,
    };
    let mut story = random_story(rng, &device, length);
    let mut items = if largest {
        largest_items(rng, &device, &story)
    } else {
        random_items(rng, &device, &story)
    };
    // Items that are turned down: by 8, by 12, or one by each.
    let wrong = rng.below(100);
    if wrong < 16 {
        let item = not_undoing(rng, &device, &items);
        insert(rng, &mut items, item);
    }
    if (10..26).contains(&wrong) {
        let item = not_effective(rng, &device, &items);
        insert(rng, &mut items, item);
    }
    spoil_story(rng, &device, &mut story);
    device.weights = random_weights(rng, device.m);
    if rng.chance(60) {
        outweigh(rng, &story, &items, &mut device.weights);
    }

    let mut records = book_records(&device, &items);
    let mut run = run_bytes(&story.commands, &story.sightings);
    let mut book = None;
    match rng.below(100) {
        0..=25 => {
            for _ in 0..1 + rng.below(5) / 3 {
                damage_records(rng, &device, &mut records);
            }
        }
        26..=33 => {
            if rng.chance(30) {
                damage_records(rng, &device, &mut records);
            }
            let mut bytes = records.concat();
            damage_bytes(rng, &mut bytes);
            book = Some(bytes);
        }
        34..=41 => damage_run(rng, &device, &mut run),
        42..=51 => {
            damage_weights(rng, &device, &mut records);
            // Faults before it and after it.
            if rng.chance(40) {
                damage_records(rng, &device, &mut records);
            }
            book = Some(records.concat());
            if rng.chance(20) {
                damage_bytes(rng, book.as_mut().unwrap());
            }
        }
        _ => {}
    }
    if rng.below(250) == 0 {
        book = Some((0..rng.below(60)).map(|_| rng.byte()).collect());
    }
    let book = book.unwrap_or_else(|| records.concat());

    let short = if rng.chance(8) { rng.within(1, 6) } else { 0 };
    let table = lent_length(rng, 2048, short == 1);
    let slots = lent_length(rng, 2176, short == 2);
    let plan = lent_length(rng, 256, short == 3);
    let legs = lent_length(rng, 96, short == 4);
    let leg_structs = lent_length(rng, 32, short == 4);
    let page = lent_length(rng, 1312, short == 5);
    let weights = lent_length(rng, 32, short == 6);

    let writing = Writing::new(rng, &device, &items);
    let ridge = looked_up(rng, 64, 16);
    let portable = looked_up(rng, 32, 12);
    let i = forecast_length(rng);
    let short = rng.chance(4);
    let scratch = lent_length(rng, 64, short);

    let filler = &mut Rng::new(seed ^ 0x5eed_f111);
    Input {
        seed,
        book,
        run,
        table: (0..table).map(|_| filler.word()).collect(),
        slots: (0..slots).map(|_| filler.byte()).collect(),
        weights: (0..weights).map(|_| filler.word() as u16).collect(),
        plan: (0..plan).map(|_| filler.byte()).collect(),
        legs: (0..legs).map(|_| filler.byte()).collect(),
        leg_structs: (0..leg_structs)
            .map(|_| [filler.byte(), filler.byte(), filler.byte()])
            .collect(),
        page: (0..page).map(|_| filler.byte()).collect(),
        i,
        scratch: (0..scratch).map(|_| filler.word()).collect(),
        n: writing.n,
        m: writing.m,
        items: writing.items,
        write_table: writing.table,
        write_slots: writing.slots,
        write_weights: writing.weights,
        out: writing.out,
        ridge,
        portable,
    }
}

/// The input of a seed for finding a reverse, the same each time. Most books are accepted; in most
/// cases there is a reverse.
pub fn find_input(seed: u64) -> FindInput {
    // Not the numbers of `input`.
    let rng = &mut Rng::new(seed ^ 0x5eed_f19d);
    let largest = rng.below(150) == 0;
    let mut device = if largest {
        permutations(rng, 64, 32)
    } else {
        find_device(rng)
    };
    let mut asked = random_asked(rng, &device);
    if rng.chance(60) && !largest {
        lure(rng, &mut device, &mut asked);
    }
    let length = rng.within(0, 8);
    let story = random_story(rng, &device, length);
    let mut items = if largest {
        largest_items(rng, &device, &story)
    } else {
        random_items(rng, &device, &story)
    };
    if rng.chance(8) && !items.is_empty() {
        asked = rng.pick(&items).clone();
    }
    spoil_asked(rng, &device, &mut asked);
    let wrong = rng.below(100);
    if wrong < 5 {
        let item = not_undoing(rng, &device, &items);
        insert(rng, &mut items, item);
    }
    if (4..9).contains(&wrong) {
        let item = not_effective(rng, &device, &items);
        insert(rng, &mut items, item);
    }
    device.weights = random_weights(rng, device.m);

    let mut records = book_records(&device, &items);
    match rng.below(100) {
        0..=4 => damage_records(rng, &device, &mut records),
        5..=6 => damage_weights(rng, &device, &mut records),
        _ => {}
    }
    let mut book = records.concat();
    if rng.chance(2) {
        damage_bytes(rng, &mut book);
    }
    let short = rng.chance(4);
    let table = lent_length(rng, 2048, short);
    let filler = &mut Rng::new(rng.word());
    FindInput {
        seed,
        book,
        forward: asked.forward,
        phi: asked.phi,
        psi: asked.psi,
        table: (0..table).map(|_| filler.word()).collect(),
    }
}

/// A length as stated, longer, or too short.
fn lent_length(rng: &mut Rng, stated: usize, short: bool) -> usize {
    match (short, rng.below(8)) {
        (true, 0) => rng.below(stated),
        (true, _) => stated - 1,
        (false, 0) => stated + rng.within(1, 40),
        (false, _) => stated,
    }
}

/// A state and a command for a device with so many of them: its own, about the
/// last one, or huge.
fn looked_up(rng: &mut Rng, states: usize, commands: usize) -> (u64, u64) {
    match rng.below(10) {
        0..=5 => (rng.below(states) as u64, rng.below(commands) as u64),
        6 => (
            rng.within(states - 4, states + 6) as u64,
            rng.within(0, commands + 4) as u64,
        ),
        7 => (
            rng.below(states + 6) as u64,
            rng.within(commands - 2, commands + 2) as u64,
        ),
        8 => (huge(rng), rng.below(commands) as u64),
        _ => (rng.below(states) as u64, huge(rng)),
    }
}

/// The commands of a run: up to 34, of which 32 are the most, or huge.
fn forecast_length(rng: &mut Rng) -> u64 {
    match rng.below(10) {
        0..=6 => rng.within(0, 34) as u64,
        7..=8 => rng.within(31, 34) as u64,
        _ => huge(rng),
    }
}

/// A number whose low bits may be in range though it is not.
fn huge(rng: &mut Rng) -> u64 {
    match rng.below(5) {
        0 => u64::MAX - rng.below(3) as u64,
        1 => rng.word(),
        2 => 1 << rng.within(6, 63),
        3 => (1 << rng.pick(&[8, 16, 32, 63])) + rng.below(20) as u64,
        _ => rng.within(64, 300) as u64,
    }
}

// Devices

fn random_device(rng: &mut Rng) -> Device {
    let n = random_n(rng);
    let m = match rng.below(100) {
        0..=69 => rng.within(1, 6),
        70..=93 => rng.within(7, 12),
        _ => rng.within(24, 32),
    };
    device_of(rng, n, m)
}

fn random_n(rng: &mut Rng) -> usize {
    match rng.below(100) {
        0..=54 => rng.within(1, 5),
        55..=81 => rng.within(6, 12),
        82..=92 => rng.within(13, 40),
        _ => rng.within(60, 64),
    }
}

/// A device of about so many states and commands.
fn device_of(rng: &mut Rng, n: usize, m: usize) -> Device {
    match rng.below(100) {
        0..=5 => ridge_device(),
        6..=24 => permutations(rng, n, m.next_multiple_of(2)),
        25..=39 => blocks(rng, n, m),
        40..=44 => {
            let mut device = Device::empty(n, m);
            for entry in &mut device.table {
                *entry = rng.word() & rng.word() & all(n);
            }
            device
        }
        _ => mixed(rng, n, m),
    }
}

/// A device for finding a reverse. Only with more than a few states are three commands ever needed.
fn find_device(rng: &mut Rng) -> Device {
    let n = match rng.below(100) {
        0..=19 => random_n(rng),
        20..=89 => rng.within(4, 16),
        _ => rng.within(17, 64),
    };
    let m = match rng.below(100) {
        0..=64 => rng.within(1, 5),
        65..=84 => rng.within(6, 12),
        _ => rng.within(13, 32),
    };
    match rng.below(100) {
        0..=24 => steps(rng, n, m),
        25..=49 => gathering(rng, n, m),
        _ => device_of(rng, n, m),
    }
}

/// Each command goes round the states by a step of its own, the same in every state. Now and then it
/// may stay, or can't be carried out in some states, or leads to one state from everywhere.
fn steps(rng: &mut Rng, n: usize, m: usize) -> Device {
    let mut device = Device::empty(n, m);
    for c in 0..m {
        let (kind, step) = (rng.below(16), rng.below(n));
        for s in 0..n {
            let there = 1 << ((s + step) % n);
            let mask = match kind {
                0 => there | 1 << s,
                1 if rng.chance(30) => 0,
                2 => 1 << step,
                _ => there,
            };
            device.set(s, c, mask);
        }
    }
    device
}

/// Commands that lead to several states, and commands that lead from nearly all states to one, which
/// is one of two; a few lead from each state to one of its own.
fn gathering(rng: &mut Rng, n: usize, m: usize) -> Device {
    let mut device = Device::empty(n, m);
    let targets = [rng.below(n), rng.below(n)];
    for c in 0..m {
        let (kind, to) = (rng.below(10), *rng.pick(&targets));
        for s in 0..n {
            let any = |rng: &mut Rng| 1 << rng.below(n);
            let mask = match kind {
                _ if rng.chance(12) => 0,
                0..=4 => 1 << to,
                5..=7 => any(rng) | any(rng) | any(rng),
                _ => any(rng),
            };
            device.set(s, c, mask);
        }
    }
    device
}

/// The weights of m commands: all 1, low ones with many equal sums, or any.
fn random_weights(rng: &mut Rng, m: usize) -> Vec<u16> {
    let (low, high) = match rng.below(100) {
        0..=39 => (1, 1),
        40..=57 => (1, 2),
        58..=74 => (1, 4),
        75..=82 => (1, 20),
        83..=86 => (999, 1000),
        _ => (1, 1000),
    };
    let mut weights: Vec<u16> = (0..m).map(|_| rng.within(low, high) as u16).collect();
    match rng.below(10) {
        // One command that is far dearer, or cheaper, than the others.
        0 => weights[rng.below(m)] = *rng.pick(&[1, 256, 1000]),
        // All the same.
        1 if high > 1 => {
            let same = *rng.pick(&[2, 255, 256, 257, 1000]);
            weights.fill(same);
        }
        _ => {}
    }
    weights
}

/// Of two items that fit at the same place, the one with fewer reverse commands gets the same sum as
/// the other, or a higher one, if such items are found.
fn outweigh(rng: &mut Rng, story: &Story, items: &[Item], weights: &mut [u16]) {
    let fitting = fitting_items(story, items);
    let count = |item: &Item, c: u8| item.reverse.iter().filter(|&&other| other == c).count();
    let own = |few: &Item, many: &Item, c| count(few, c).saturating_sub(count(many, c));
    let mut found = Vec::new();
    for &few in &fitting {
        for &many in &fitting {
            let rivals = many.forward == few.forward && many.reverse.len() > few.reverse.len();
            let c = few.reverse.iter().find(|&&c| own(few, many, c) > 0);
            found.extend(c.filter(|_| rivals).map(|&c| (few, many, c)));
        }
    }
    if found.is_empty() {
        return;
    }
    let (few, many, c) = *rng.pick(&found);
    let others = |item: &Item| -> usize {
        let others = item.reverse.iter().filter(|&&other| other != c);
        others.map(|&c| usize::from(weights[usize::from(c)])).sum()
    };
    let equal = others(many)
        .saturating_sub(others(few))
        .div_ceil(own(few, many, c));
    let more = if rng.chance(50) { 0 } else { rng.within(1, 3) };
    weights[usize::from(c)] = (equal + more).clamp(1, 1000) as u16;
}

/// States in blocks of b. A third of the commands leave only the block known,
/// a third set the place in the block, a third go round the blocks.
fn blocks(rng: &mut Rng, n: usize, m: usize) -> Device {
    let b = rng.within(2, 4);
    let count = n.div_ceil(b);
    let mut device = Device::empty(n, m);
    for c in 0..m {
        let (kind, step) = (rng.below(3), rng.below(count));
        for s in 0..n {
            let base = s / b * b;
            let block = ((1u64 << b) - 1) << base & all(n);
            let mask = match kind {
                0 => block,
                1 => 1 << (base + (c + step) % b).min(n - 1),
                _ => 1 << ((base + step * b) % (count * b) + s % b).min(n - 1),
            };
            device.set(s, c, mask);
        }
    }
    device
}

/// Every command of a kind of its own.
fn mixed(rng: &mut Rng, n: usize, m: usize) -> Device {
    let mut device = Device::empty(n, m);
    let mut c = 0;
    while c < m {
        let domain = if rng.chance(70) {
            all(n)
        } else {
            rng.word() | rng.word()
        };
        match rng.below(10) {
            // To one state from everywhere.
            0..=2 => {
                let to = rng.below(n);
                states(domain & all(n)).for_each(|s| device.set(s, c, 1 << to));
            }
            // A permutation, with its inverse where there is room.
            3..=5 => {
                let mut to: Vec<usize> = (0..n).collect();
                rng.shuffle(&mut to);
                for s in states(domain & all(n)) {
                    device.set(s, c, 1 << to[s]);
                    if c + 1 < m {
                        device.set(to[s], c + 1, 1 << s);
                    }
                }
                if c + 1 < m {
                    device.inverse[c] = Some(c as u8 + 1);
                    if domain & all(n) == all(n) {
                        device.inverse[c + 1] = Some(c as u8);
                    }
                    c += 1;
                }
            }
            6 => (0..n).for_each(|s| device.set(s, c, 1 << s)),
            // A function.
            7 => states(domain & all(n)).for_each(|s| device.set(s, c, 1 << rng.below(n))),
            // One to three outcomes.
            8 => states(domain & all(n)).for_each(|s| {
                let mask = 1 << rng.below(n) | 1 << rng.below(n) | 1 << rng.below(n);
                device.set(s, c, mask)
            }),
            // From one state only, to several.
            _ => device.set(rng.below(n), c, (rng.word() | 1) & all(n)),
        }
        c += 1;
    }
    device
}

// Runs

struct Story {
    commands: Vec<u8>,
    sightings: Vec<u64>,
    possible: Vec<u64>,
    /// How often items try to have one more reverse command.
    padding: usize,
}

/// So many commands, or fewer where the device is stuck. It has a history.
fn random_story(rng: &mut Rng, device: &Device, length: usize) -> Story {
    let everything = all(device.n);
    // A true history, which often goes round the same few commands.
    let period = if rng.chance(50) { rng.within(1, 4) } else { 32 };
    let mut trail = vec![rng.below(device.n)];
    let mut commands: Vec<u8> = Vec::new();
    while commands.len() < length {
        let at = trail[commands.len()];
        let able = |&c: &u8| device.outcomes(at, c) != 0;
        let wanted = commands
            .len()
            .checked_sub(period)
            .map(|j| commands[j])
            .filter(able);
        let tried = (0..12).map(|_| rng.below(device.m) as u8).find(able);
        let Some(c) = wanted.or(tried) else { break };
        trail.push(rng.state_of(device.outcomes(at, c)));
        commands.push(c);
    }

    let style = rng.below(4); // how much is heard
    let mut sightings: Vec<u64> = trail
        .iter()
        .map(|&s| match if style == 3 { rng.below(3) } else { style } {
            0 => everything,
            1 => 1 << s,
            _ => 1 << s | rng.word() & rng.word() & everything,
        })
        .collect();
    if style == 0 && rng.chance(60) {
        sightings[0] = 1 << trail[0];
    }

    let possible = device.possible(&commands, &sightings);
    let padding = if rng.chance(8) { 40 } else { rng.below(4) };
    Story {
        commands,
        sightings,
        possible,
        padding,
    }
}

/// Now and then no history, or perhaps none. It comes after the items, so that they are those of a
/// story that has one.
fn spoil_story(rng: &mut Rng, device: &Device, story: &mut Story) {
    let Story {
        commands,
        sightings,
        ..
    } = story;
    let any = rng.below(sightings.len());
    match rng.below(100) {
        0..=2 => *sightings.last_mut().unwrap() = 0,
        3..=4 => sightings[any] = 0,
        5..=7 => sightings[any] &= rng.word(),
        8..=9 if !commands.is_empty() => {
            let at = rng.below(commands.len());
            commands[at] = rng.below(device.m) as u8;
        }
        10..=11 if any > 0 => {
            sightings[any] &= !device.after(sightings[any - 1], commands[any - 1]);
        }
        _ => {}
    }
}

// Items

fn random_items(rng: &mut Rng, device: &Device, story: &Story) -> Vec<Item> {
    let top = story.commands.len();
    let mut items: Vec<Item> = Vec::new();

    // A cover of the run from its last point down, where one can be found.
    let longest = rng.within(1, 8);
    let mut upper = top;
    while upper > 0 && items.len() < 64 {
        let fitting = items.iter().find(|item| fits(story, item, upper));
        if let Some(item) = fitting.filter(|_| rng.chance(60)) {
            upper -= item.forward.len();
            continue;
        }
        let found = (0..6).find_map(|_| {
            let k = rng.within(1, longest.min(upper));
            fitting_item(rng, device, story, upper, k)
        });
        let Some(item) = found else { break };
        upper -= item.forward.len();
        items.push(item);
    }

    // Competitors, near misses, and items of other commands.
    let more = match rng.below(10) {
        0..=3 => rng.below(4),
        4..=7 => rng.below(12),
        8 => rng.below(30),
        _ => 64,
    };
    for _ in 0..more {
        let item = if top > 0 && rng.chance(80) {
            let upper = rng.within(1, top);
            let longest = if rng.chance(70) { 3 } else { 8 };
            let k = rng.within(1, upper.min(longest));
            let item = fitting_item(rng, device, story, upper, k);
            // Still accepted, but it may no longer fit.
            match rng.below(100) {
                0..=9 => item.map(|item| narrowed(rng, device, item)),
                10..=14 => item.map(|item| one_start_one_end(rng, device, item)),
                _ => item,
            }
        } else {
            other_item(rng, device)
        };
        items.extend(item);
        if !items.is_empty() && rng.chance(8) {
            let again = rng.pick(&items).clone();
            items.push(again);
        }
    }
    rng.shuffle(&mut items);
    items.truncate(64);
    for _ in 0..rng.below(4) {
        let item = rival(rng, device, story, &items);
        insert(rng, &mut items, item);
    }
    items
}

/// The items that fit somewhere and have reverse commands.
fn fitting_items<'a>(story: &Story, items: &'a [Item]) -> Vec<&'a Item> {
    items
        .iter()
        .filter(|item| !item.reverse.is_empty())
        .filter(|item| (1..=story.commands.len()).any(|upper| fits(story, item, upper)))
        .collect()
}

/// An item that fits where another does and undoes the same by another number of commands, if one
/// is found.
fn rival(rng: &mut Rng, device: &Device, story: &Story, items: &[Item]) -> Option<Item> {
    let fitting = fitting_items(story, items);
    if fitting.is_empty() {
        return None;
    }
    let item = *rng.pick(&fitting);
    (0..40).find_map(|_| {
        let count = rng.within(1, 4);
        let reverse = (0..count).map(|_| rng.below(device.m) as u8).collect();
        Some(Item {
            reverse,
            ..item.clone()
        })
        .filter(|other| other.reverse.len() != item.reverse.len() && device.undoes(other))
    })
}

fn fits(story: &Story, item: &Item, upper: usize) -> bool {
    let k = item.forward.len();
    k <= upper
        && story.commands[upper - k..upper] == item.forward
        && story.possible[upper] & !item.phi == 0
        && story.possible[upper - k] & !item.psi == 0
}

/// An accepted item that fits from a point over k commands, if one is found.
fn fitting_item(
    rng: &mut Rng,
    device: &Device,
    story: &Story,
    upper: usize,
    k: usize,
) -> Option<Item> {
    let forward = story.commands[upper - k..upper].to_vec();
    let phi = match rng.below(3) {
        0 => all(device.n),
        1 => story.possible[upper],
        _ => story.possible[upper] | rng.word() & rng.word() & all(device.n),
    };
    let need = story.possible[upper - k];
    let reverse = find_reverse(rng, device, &forward, phi, need, story.padding)?;
    let psi = match rng.below(3) {
        0 => need,
        1 => device.undone_starts(&forward, &reverse, phi),
        _ => need | rng.word() & device.undone_starts(&forward, &reverse, phi),
    };
    Some(Item {
        forward,
        reverse,
        phi,
        psi,
    })
}

/// Reverse commands that undo the forward ones from all needed starts.
fn find_reverse(
    rng: &mut Rng,
    device: &Device,
    forward: &[u8],
    phi: u64,
    need: u64,
    padding: usize,
) -> Option<Vec<u8>> {
    let good = |reverse: &[u8]| states(need).all(|s| device.undone(s, forward, reverse, phi));
    let m = device.m;
    let tries = if device.n > 16 { 20 } else { 60 };
    let inverse: Option<Vec<u8>> = forward
        .iter()
        .rev()
        .map(|&c| device.inverse[usize::from(c)])
        .collect();
    let several = |rng: &mut Rng| {
        (0..tries)
            .map(|_| {
                let count = rng.within(2, 4);
                (0..count).map(|_| rng.below(m) as u8).collect::<Vec<u8>>()
            })
            .find(|reverse| good(reverse))
    };
    let mut found = inverse.filter(|reverse| rng.chance(70) && good(reverse));
    // Now and then several commands where fewer would do, and not these among others.
    if found.is_none() && rng.chance(30) {
        found = several(rng);
    }
    if found.is_none() && good(&[]) {
        found = Some(Vec::new());
    }
    if found.is_none() {
        let from = rng.below(m);
        found = (0..m)
            .map(|c| vec![((from + c) % m) as u8])
            .find(|reverse| good(reverse));
    }
    let mut reverse = found.or_else(|| several(rng))?;
    // Often not the shortest one.
    for _ in 0..padding {
        let mut longer = reverse.clone();
        let c = rng.below(m) as u8;
        let at = rng.within(0, longer.len());
        longer.insert(at, c);
        if let Some(back) = device.inverse[usize::from(c)].filter(|_| rng.chance(70)) {
            longer.insert(at + 1, back);
        }
        if longer.len() <= 8 && good(&longer) {
            reverse = longer;
        }
    }
    Some(reverse)
}

/// Fewer states in phi and psi, if some start still has an end.
fn narrowed(rng: &mut Rng, device: &Device, item: Item) -> Item {
    let less = Item {
        phi: item.phi & (rng.word() | rng.word()),
        psi: item.psi & (rng.word() | rng.word()),
        ..item.clone()
    };
    if device.effective(&less) {
        less
    } else {
        item
    }
}

/// One start and one end of the item. The other states of phi are no ends of this start, the other
/// states of psi have no end.
fn one_start_one_end(rng: &mut Rng, device: &Device, item: Item) -> Item {
    let start = rng.state_of(item.psi & device.effective_starts(&item.forward, item.phi));
    let ends = device.ends(start, &item.forward, all(device.n));
    let end = rng.state_of(ends & item.phi);
    let phi = 1 << end | rng.word() & all(device.n) & !ends;
    let others = all(device.n) & !device.effective_starts(&item.forward, phi);
    Item {
        phi,
        psi: 1 << start | rng.word() & others,
        ..item
    }
}

/// An accepted item of other commands than the run's, if one is found.
fn other_item(rng: &mut Rng, device: &Device) -> Option<Item> {
    let longest = if rng.chance(80) { 3 } else { 8 };
    let length = rng.within(1, longest);
    let story = random_story(rng, device, length);
    match story.commands.len() {
        0 => None,
        k => fitting_item(rng, device, &story, k, k),
    }
}

// Items that are turned down

/// Anywhere among the items, of which at most 64 stay.
fn insert(rng: &mut Rng, items: &mut Vec<Item>, item: Option<Item>) {
    let at = rng.within(0, items.len());
    items.splice(at..at, item);
    items.truncate(64);
}

/// One of the items; where there is none, another, if one is found.
fn any_item(rng: &mut Rng, device: &Device, items: &[Item]) -> Option<Item> {
    match items.len() {
        0 => other_item(rng, device),
        count => Some(items[rng.below(count)].clone()),
    }
}

/// An item that is no conditional reverse plan, if one is found: code 8.
fn not_undoing(rng: &mut Rng, device: &Device, items: &[Item]) -> Option<Item> {
    if rng.chance(60) {
        let partly = rng.chance(70);
        let item = (0..20).find_map(|_| stuck(rng, device, items, partly));
        if item.is_some() {
            return item;
        }
    }
    (0..20).find_map(|_| {
        let mut item = any_item(rng, device, items)?;
        match rng.below(7) {
            5..=6 if item.reverse.len() < 8 => {
                let at = rng.within(0, item.reverse.len());
                item.reverse.insert(at, rng.below(device.m) as u8);
            }
            0 => item.psi |= 1 << rng.below(device.n),
            1 => item.phi |= 1 << rng.below(device.n),
            2 => item.reverse.truncate(rng.below(item.reverse.len().max(1))),
            3 if !item.reverse.is_empty() => {
                let at = rng.below(item.reverse.len());
                item.reverse[at] = rng.below(device.m) as u8;
            }
            _ => {
                item.phi = all(device.n);
                item.psi = all(device.n);
            }
        }
        Some(item).filter(|item| !device.undoes(item))
    })
}

/// An item with one more reverse command that some state can't carry out, if one is found. For `partly`
/// another state can, after any one forward command from any one start.
fn stuck(rng: &mut Rng, device: &Device, items: &[Item], partly: bool) -> Option<Item> {
    let mut item = any_item(rng, device, items)?;
    if partly {
        item.forward = vec![rng.below(device.m) as u8];
        item.phi = all(device.n);
        item.psi = 1 << rng.below(device.n);
    }
    let mut found = Vec::new();
    for start in states(item.psi) {
        let mut set = device.ends(start, &item.forward, item.phi);
        for at in 0..=item.reverse.len().min(7) {
            for c in 0..device.m as u8 {
                let unable = states(set).any(|s| device.outcomes(s, c) == 0);
                if unable && (!partly || device.after(set, c) != 0) {
                    found.push((at, c));
                }
            }
            set = (item.reverse.get(at)).map_or(0, |&c| device.after(set, c));
        }
    }
    if found.is_empty() {
        return None;
    }
    let (at, c) = *rng.pick(&found);
    item.reverse.insert(at, c);
    item.reverse.truncate(8);
    Some(item)
}

/// An item of which no start has an end, if one is found: code 12.
fn not_effective(rng: &mut Rng, device: &Device, items: &[Item]) -> Option<Item> {
    (0..20).find_map(|_| {
        let mut item = any_item(rng, device, items)?;
        let (phi, psi) = (item.phi, item.psi);
        match rng.below(9) {
            0 => item.phi = 0,
            1 => item.psi = 0,
            // One forward command is another.
            2..=4 => {
                let at = rng.below(item.forward.len());
                item.forward[at] = rng.below(device.m) as u8;
            }
            // Other states before.
            5..=6 => {
                let more = psi | rng.word() & all(device.n);
                item.psi = more & !device.effective_starts(&item.forward, phi);
            }
            // Other states after.
            _ => {
                let ends = item
                    .forward
                    .iter()
                    .fold(psi, |set, &c| device.after(set, c));
                item.phi = (phi | rng.word() & all(device.n)) & !ends;
            }
        }
        // Nothing comes of the reverse commands, right or wrong.
        if rng.chance(30) {
            let count = rng.within(0, 8);
            item.reverse = (0..count).map(|_| rng.below(device.m) as u8).collect();
        }
        Some(item).filter(|item| !device.effective(item))
    })
}

/// 64 items with k = r = 8, some of which fit the run.
fn largest_items(rng: &mut Rng, device: &Device, story: &Story) -> Vec<Item> {
    let inverse = |c: &u8| device.inverse[usize::from(*c)].unwrap();
    (0..64)
        .map(|_| {
            let upper = rng.within(0, story.commands.len());
            let forward: Vec<u8> = match upper.checked_sub(8) {
                Some(lower) => story.commands[lower..upper].to_vec(),
                None => (0..8).map(|_| rng.below(device.m) as u8).collect(),
            };
            let reverse = forward.iter().rev().map(inverse).collect();
            Item {
                forward,
                reverse,
                phi: u64::MAX,
                psi: u64::MAX,
            }
        })
        .collect()
}

// What is asked for

/// Forward commands, phi and psi. Mostly there is a reverse, of three commands at most.
fn random_asked(rng: &mut Rng, device: &Device) -> Item {
    // As many commands as are wanted, or else fewer; four are too many.
    let most = *rng.pick(&[0, 1, 1, 2, 2, 3, 3, 4, 4, 4]);
    let tries = if device.n > 16 { 30 } else { 120 };
    let mut counts = (0..=most).rev().flat_map(|count| [count].repeat(tries));
    let found = counts.find_map(|count| asked_with(rng, device, count));
    found.unwrap_or_else(|| {
        let length = rng.within(1, 8);
        Item {
            forward: (0..length).map(|_| rng.below(device.m) as u8).collect(),
            reverse: vec![],
            phi: all(device.n),
            psi: rng.word() & all(device.n),
        }
    })
}

/// What so many reverse commands undo, if it is found, and neither two nor one nor none where they
/// are more.
fn asked_with(rng: &mut Rng, device: &Device, count: usize) -> Option<Item> {
    let everything = all(device.n);
    let longest = if rng.chance(70) { 3 } else { 8 };
    let length = rng.within(1, longest);
    let story = random_story(rng, device, length);
    let forward = story.commands;
    let last = story.possible[forward.len()];
    let phi = match rng.below(4) {
        0..=1 => everything,
        2 => last,
        _ => last | rng.word() & rng.word() & everything,
    };
    let inverse: Option<Vec<u8>> = (forward.iter().rev())
        .map(|&c| device.inverse[usize::from(c)])
        .collect();
    let reverse = inverse
        .filter(|inverse| inverse.len() == count && rng.chance(50))
        .unwrap_or_else(|| (0..count).map(|_| rng.below(device.m) as u8).collect());
    let undone = device.undone_starts(&forward, &reverse, phi);
    let effective = undone & device.effective_starts(&forward, phi);
    if forward.is_empty() || effective == 0 {
        return None;
    }
    let start = 1 << rng.state_of(effective);
    let psi = match rng.below(4) {
        0..=1 => undone,
        2 => start,
        _ => start | rng.word() & undone,
    };
    Some(Item {
        forward,
        reverse,
        phi,
        psi,
    })
    .filter(|item| !fewer_do(device, item))
}

/// Whether fewer reverse commands would do, two at most.
fn fewer_do(device: &Device, item: &Item) -> bool {
    let undoes = |reverse: &[u8]| {
        states(item.psi).all(|s| device.undone(s, &item.forward, reverse, item.phi))
    };
    let commands = || 0..device.m as u8;
    let count = item.reverse.len();
    count > 0 && undoes(&[])
        || count > 1 && commands().any(|a| undoes(&[a]))
        || count > 2 && commands().any(|a| commands().any(|b| undoes(&[a, b])))
}

/// Where the reverse goes through a set of several states, another command leads from there to the start
/// and is stuck in one of them, if the device has one that isn't used. One start with an end is left.
fn lure(rng: &mut Rng, device: &mut Device, asked: &mut Item) {
    let effective = asked.psi & device.effective_starts(&asked.forward, asked.phi);
    let used = |c: &u8| asked.forward.contains(c) || asked.reverse.contains(c);
    let unused: Vec<u8> = (0..device.m as u8).filter(|c| !used(c)).collect();
    if effective == 0 || unused.is_empty() {
        return;
    }
    let start = rng.state_of(effective);
    let mut sets = vec![device.ends(start, &asked.forward, asked.phi)];
    for &c in &asked.reverse {
        sets.push(device.after(sets[sets.len() - 1], c));
    }
    sets.retain(|set| set.count_ones() > 1);
    if sets.is_empty() {
        return;
    }
    let (set, c) = (*rng.pick(&sets), *rng.pick(&unused));
    let stuck = rng.state_of(set);
    for s in states(set) {
        let back = if s == stuck { 0 } else { 1 << start };
        device.set(s, usize::from(c), back);
    }
    device.inverse.fill(None);
    asked.psi &= !effective;
    asked.psi |= 1 << start;
}

/// Now and then what no item may hold, or what has no reverse, or perhaps none.
fn spoil_asked(rng: &mut Rng, device: &Device, asked: &mut Item) {
    let (n, m) = (device.n, device.m);
    let everything = all(n);
    let high_bit = |rng: &mut Rng| match n {
        64 => 0,
        _ if rng.chance(50) => 1 << n,
        _ => 1 << rng.within(n, 63),
    };
    match rng.below(100) {
        // 14: no commands, too many, one that the device doesn't have; a state likewise.
        0..=1 => asked.forward.clear(),
        2..=4 => {
            let length = *rng.pick(&[9, 9, 10, 16, 255, 256, 257, 259, 264, 300]);
            let c = rng.below(m) as u8;
            asked.forward.resize(length, c);
        }
        5..=7 => {
            let at = rng.below(asked.forward.len());
            let low = asked.forward[at];
            asked.forward[at] = *rng.pick(&[m as u8, m as u8, low | 32, low | 128, 255]);
        }
        8..=9 => asked.phi |= high_bit(rng),
        10..=11 => asked.psi |= high_bit(rng),
        // 15: no start has an end.
        12 => asked.phi = 0,
        13 => asked.psi = 0,
        14 => asked.psi &= !device.effective_starts(&asked.forward, asked.phi),
        // More starts, another end, another command.
        15..=20 => asked.psi |= 1 << rng.below(n),
        21..=22 => asked.psi |= rng.word() & everything,
        23..=24 => asked.phi |= 1 << rng.below(n),
        25 => {
            let at = rng.below(asked.forward.len());
            asked.forward[at] = rng.below(m) as u8;
        }
        26 if asked.forward.len() < 8 => asked.forward.push(rng.below(m) as u8),
        _ => {}
    }
}

// Damage

/// Changes one record, or the row of records, against the rules.
fn damage_records(rng: &mut Rng, device: &Device, records: &mut Vec<Vec<u8>>) {
    let any = rng.below(records.len());
    let moves: Vec<usize> = (0..records.len())
        .filter(|&at| kind(&records[at]) == 2)
        .collect();
    let items: Vec<usize> = (0..records.len())
        .filter(|&at| kind(&records[at]) == 3)
        .collect();
    let at = match rng.below(6) {
        0 => 0,
        1..=2 if !moves.is_empty() => *rng.pick(&moves),
        3..=5 if !items.is_empty() => *rng.pick(&items),
        _ => any,
    };
    match rng.below(16) {
        // 3: another kind.
        0 => {
            let other = *rng.pick(&[
                0, 1, 2, 3, 4, 5, 6, 255, 257, 258, 259, 261, 513, 0x0300, 0x0500, 0xffff,
            ]);
            set_kind(&mut records[at], other);
        }
        // 3: out of order.
        1 => {
            let (from, to) = (any, rng.below(records.len()));
            let moved = records.remove(from);
            records.insert(to, moved);
        }
        2 => {
            let state = rng.below(device.n) as u8;
            let extra = match rng.below(5) {
                0 => record(1, &[device.n as u8, device.m as u8]),
                1 => record(4, &[0; 9]),
                2 => run_bytes(&[], &[all(device.n)]),
                3 => weights_record(&device.weights),
                _ => move_record(state, 0, 1),
            };
            records.push(extra);
        }
        // 4: a body of another length.
        3..=5 => {
            let body = records[at].len() - 4;
            let length = *rng.pick(&[0, 1, 2, body.saturating_sub(1), body + 1, body + 8, 10, 18]);
            records[at].resize(4 + length, rng.pick(&[0, 1, 7]).to_owned());
            set_length(&mut records[at], length);
        }
        // 5: a field.
        6..=9 => spoil_field(rng, device, &mut records[at]),
        // 6: moves that do not rise.
        10..=11 => match rng.below(3) {
            0 if moves.len() > 1 => {
                let low = rng.below(moves.len() - 1);
                records.swap(moves[low], moves[rng.within(low + 1, moves.len() - 1)]);
            }
            1 if !moves.is_empty() => {
                let at = *rng.pick(&moves);
                let mut twice = records[at].clone();
                // A record that was damaged before may have no such byte.
                if let Some(byte) = twice.get_mut(6) {
                    *byte ^= rng.byte() & 1;
                }
                records.insert(at + 1, twice);
            }
            _ => {
                let at = items.first().map_or(records.len(), |&first| first);
                records.insert(at, move_record(0, 0, 1));
                records.insert(at, move_record(0, 0, 1));
            }
        },
        // 7: a 65th item, good or not.
        12..=14 => {
            let some = items.first().map(|&at| records[at].clone());
            let empty = Item {
                forward: vec![0],
                reverse: vec![],
                phi: 0,
                psi: 0,
            };
            let some = some.unwrap_or_else(|| item_record(&empty));
            let count = items.len();
            records.extend((count..64).map(|_| some.clone()));
            let mut last = some;
            match rng.below(4) {
                0 => spoil_field(rng, device, &mut last),
                1 => last = record(3, &vec![1; rng.below(20)]),
                _ => {}
            }
            if rng.chance(90) {
                records.push(last);
            }
        }
        // Several faults in one record.
        _ => {
            spoil_field(rng, device, &mut records[at]);
            if rng.chance(50) {
                let length = records[at].len() - 3;
                records[at].push(0);
                set_length(&mut records[at], length);
            }
            if rng.chance(40) {
                set_kind(&mut records[at], rng.pick(&[1, 2, 3, 5, 9]).to_owned());
            }
        }
    }
}

/// A weights record after the device, in the place of the one that may be there, and something
/// wrong with it; now and then it only looks wrong.
fn damage_weights(rng: &mut Rng, device: &Device, records: &mut Vec<Vec<u8>>) {
    let m = device.m;
    if records.len() > 1 && kind(&records[1]) == 5 {
        records.remove(1);
    }
    let any = |rng: &mut Rng| random_weights(rng, m);
    let wrong = |rng: &mut Rng| *rng.pick(&[0, 1001, 1002, 1024, 0x0a01, 0x8001, 0xe803, 0xffff]);
    match rng.below(17) {
        // 13.
        0..=4 => records.insert(1, weights_record(&vec![1; m])),
        // 5, where it is 13 but for that weight, or not.
        5..=7 => {
            let mut weights = if rng.chance(50) { vec![1; m] } else { any(rng) };
            weights[rng.below(m)] = wrong(rng);
            records.insert(1, weights_record(&weights));
        }
        // High byte first: 256 for 1, 512 for 2, 59,395 for 1,000.
        8..=9 => {
            let weights: Vec<u16> = any(rng).iter().map(|w| w.swap_bytes()).collect();
            records.insert(1, weights_record(&weights));
        }
        // 4: a body of another length, of ones, of other weights, of wrong ones.
        10..=11 => {
            let length = *rng.pick(&[0, 1, m, 2 * m - 1, 2 * m - 2, 2 * m + 1, 2 * m + 2, 64]);
            let mut body = match rng.below(3) {
                0 => [1, 0].repeat(33),
                1 => [232, 3].repeat(33),
                _ => vec![0; 66],
            };
            body.truncate(length);
            records.insert(1, record(5, &body));
        }
        // 3: in another place, right or wrong in itself.
        12..=13 => {
            let weights = if rng.chance(70) { any(rng) } else { vec![1; m] };
            let at = match rng.below(4) {
                0 => 0,
                1 => records.len(),
                _ => rng.below(records.len() + 1),
            };
            records.insert(at, weights_record(&weights));
        }
        // 3: another kind.
        14 => {
            records.insert(1, weights_record(&any(rng)));
            set_kind(&mut records[1], *rng.pick(&[4, 6, 261, 0x0500, 0x0505]));
        }
        // 3: a second one.
        _ => {
            let mut first = any(rng);
            if rng.chance(80) {
                first[rng.below(m)] = 2;
            }
            let second = if rng.chance(50) {
                first.clone()
            } else {
                any(rng)
            };
            records.insert(1, weights_record(&first));
            records.insert(2, weights_record(&second));
        }
    }
}

fn kind(record: &[u8]) -> u16 {
    match record {
        [_, _, low, high, ..] => u16::from_le_bytes([*low, *high]),
        _ => 0,
    }
}

fn set_kind(record: &mut [u8], kind: u16) {
    record[2..4].copy_from_slice(&kind.to_le_bytes());
}

fn set_length(record: &mut [u8], length: usize) {
    record[..2].copy_from_slice(&(length as u16).to_le_bytes());
}

/// A field out of its range, the length kept.
fn spoil_field(rng: &mut Rng, device: &Device, record: &mut [u8]) {
    let (n, m) = (device.n, device.m);
    let length = record.len();
    let high_bit = |rng: &mut Rng, mask: &mut [u8]| match n {
        64 => {}
        _ => {
            let bit = if rng.chance(50) { n } else { rng.within(n, 63) };
            mask[bit / 8] |= 1 << (bit % 8);
        }
    };
    match (kind(record), length) {
        (1, 6) => match rng.below(4) {
            0 => record[4] = 0,
            1 => record[4] = *rng.pick(&[65, 66, 128, 255]),
            2 => record[5] = 0,
            _ => record[5] = *rng.pick(&[33, 64, 255]),
        },
        (2, 14) => match rng.below(4) {
            0 => record[4] = if rng.chance(70) { n as u8 } else { 255 },
            1 => record[5] = if rng.chance(70) { m as u8 } else { 255 },
            2 => record[6..].fill(0),
            _ => high_bit(rng, &mut record[6..]),
        },
        (3, 23..) => match rng.below(6) {
            0 => record[4] = *rng.pick(&[0, 9, 10, 255]),
            1 => record[5] = *rng.pick(&[9, 10, 255]),
            2..=3 => {
                let at = rng.within(6, length - 17);
                record[at] = if rng.chance(70) { m as u8 } else { 255 };
            }
            4 => high_bit(rng, &mut record[length - 16..length - 8]),
            _ => high_bit(rng, &mut record[length - 8..]),
        },
        (5, 6..) => {
            let weight: u16 = *rng.pick(&[0, 1001, 1024, 0xffff]);
            let at = 4 + 2 * rng.below((length - 4) / 2);
            record[at..at + 2].copy_from_slice(&weight.to_le_bytes());
        }
        _ if length > 4 => record[rng.within(4, length - 1)] = rng.byte(),
        _ => {}
    }
}

fn damage_bytes(rng: &mut Rng, bytes: &mut Vec<u8>) {
    let length = bytes.len();
    match rng.below(10) {
        0..=3 => bytes.truncate(rng.below(length)),
        4 => bytes.truncate(length.saturating_sub(rng.within(1, 30))),
        5 => bytes.extend((0..rng.within(1, 5)).map(|_| rng.byte() & 3)),
        6 => bytes.clear(),
        7 => bytes.insert(rng.below(length), rng.byte() & 7),
        8 => {
            bytes.remove(rng.below(length));
        }
        _ => {
            let at = rng.below(length);
            bytes[at] ^= 1 << rng.below(8);
        }
    }
}

fn damage_run(rng: &mut Rng, device: &Device, run: &mut Vec<u8>) {
    let i = usize::from(run[4]);
    match rng.below(12) {
        0 => run.truncate(rng.below(run.len())),
        1 => run.push(rng.byte()),
        2 => run.clear(),
        3 => set_kind(run, *rng.pick(&[0, 1, 3, 5, 260, 0x0400])),
        4 => run[4] = *rng.pick(&[33, 34, 64, 255]),
        5 => run[4] = run[4].wrapping_add(if rng.chance(50) { 1 } else { 255 }),
        6 => {
            let length = run.len() - 4;
            set_length(run, *rng.pick(&[0, length - 1, length + 1, length ^ 256]));
        }
        7 if i > 0 => run[5 + rng.below(i)] = device.m as u8,
        8 if device.n < 64 => {
            let bit = rng.within(device.n, 63);
            let at = 5 + i + 8 * rng.within(0, i);
            run[at + bit / 8] |= 1 << (bit % 8);
        }
        // One of 33 commands, whole in itself.
        9 => *run = run_bytes(&[0; 33], &[all(device.n); 34]),
        10 => {
            let again = run.clone();
            run.extend(again);
        }
        _ => damage_bytes(rng, run),
    }
}

// Writing

struct Writing {
    n: u64,
    m: u64,
    items: u64,
    table: Vec<u64>,
    slots: Vec<u8>,
    weights: Vec<u16>,
    out: Vec<u8>,
}

impl Writing {
    fn new(rng: &mut Rng, device: &Device, items: &[Item]) -> Self {
        let (n, m) = (device.n, device.m);
        let short = if rng.chance(6) { rng.within(1, 4) } else { 0 };
        let lengths = [
            lent_length(rng, 2048, short == 1),
            lent_length(rng, 2176, short == 2),
            lent_length(rng, 32, short == 3),
            lent_length(rng, 31_178, short == 4),
        ];
        let mut filler = Rng::new(rng.word());

        let used = match rng.below(4) {
            0 => rng.within(0, items.len()),
            _ => items.len(),
        };
        let mut table = device.table.clone();
        let mut slots: Vec<u8> = items[..used].iter().flat_map(slot_bytes).collect();
        let mut weights = device.weights.clone();
        let mut case = Writing {
            n: n as u64,
            m: m as u64,
            items: used as u64,
            table: vec![],
            slots: vec![],
            weights: vec![],
            out: vec![],
        };

        let mut spoil = |rng: &mut Rng, case: &mut Writing| match rng.below(26) {
            0 => case.n = *rng.pick(&[0, 65, 66, 256, 256 + n as u64, 1 << 32, u64::MAX]),
            1 => case.m = *rng.pick(&[0, 33, 64, 256 + m as u64, 1 << 63, u64::MAX]),
            2..=3 => case.items = *rng.pick(&[65, 66, 128, 256, (1 << 32) + 1, u64::MAX]),
            4..=8 if n < 64 => {
                let at = rng.below(n * m);
                table[at] |= 1 << rng.within(n, 63);
            }
            9..=14 => weights[rng.below(m)] = *rng.pick(&[0, 1001, 1024, 0x8001, 0xffff]),
            _ if used > 0 => {
                let at = rng.below(used);
                spoil_slot(rng, n, m, &mut slots[34 * at..34 * at + 34]);
            }
            _ => {}
        };
        if rng.chance(45) {
            for _ in 0..1 + rng.below(5) / 3 {
                spoil(rng, &mut case);
            }
        }

        // What lies past entries, slots and weights is ignored, so anything may be there.
        let plain = rng.chance(20);
        let noise = |filler: &mut Rng| if plain { 0 } else { filler.word() };
        table.resize_with(lengths[0].max(table.len()), || noise(&mut filler));
        table.truncate(lengths[0]);
        slots.resize_with(lengths[1].max(slots.len()), || noise(&mut filler) as u8);
        slots.truncate(lengths[1]);
        weights.resize_with(lengths[2].max(weights.len()), || noise(&mut filler) as u16);
        weights.truncate(lengths[2]);
        case.table = table;
        case.slots = slots;
        case.weights = weights;
        case.out = (0..lengths[3].div_ceil(8))
            .flat_map(|_| filler.word().to_le_bytes())
            .collect();
        case.out.truncate(lengths[3]);
        case
    }
}

fn spoil_slot(rng: &mut Rng, n: usize, m: usize, slot: &mut [u8]) {
    let (k, r) = (usize::from(slot[0]).min(8), usize::from(slot[1]).min(8));
    let high = |rng: &mut Rng, mask: &mut [u8]| {
        if n < 64 {
            let bit = rng.within(n, 63);
            mask[bit / 8] |= 1 << (bit % 8);
        }
    };
    match rng.below(10) {
        0 => slot[0] = *rng.pick(&[0, 9, 255]),
        1 => slot[1] = *rng.pick(&[9, 10, 255]),
        // One fewer: the last command is now an unused byte.
        2 => slot[0] = slot[0].wrapping_sub(1),
        3 => slot[1] = slot[1].saturating_sub(1),
        4 if k > 0 => slot[2 + rng.below(k)] = m as u8,
        5 if r > 0 => slot[10 + rng.below(r)] = *rng.pick(&[m as u8, 255]),
        6 if k < 8 => slot[2 + rng.within(k, 7)] = rng.byte() & 1,
        7 if r < 8 => slot[10 + rng.within(r, 7)] = 1,
        8 => high(rng, &mut slot[18..26]),
        9 => high(rng, &mut slot[26..34]),
        _ => slot[rng.below(34)] = rng.byte(),
    }
}
