//! The books for measuring and docs/FORMAT.md's items for the portable relay
//! and the ridge repeater are what they are said to be, and a seed gives the
//! same input each time.

use rollback_cases::device::{all, book_bytes, ridge_device, run_bytes, Device, Item};
use rollback_cases::*;
use rollback_plain::{assemble, check, find, forecast, Assembly, Checking, Found};

fn checked(book: &[u8]) -> Checking {
    check(book, &mut [0; 2048], &mut [0; 2176], &mut [0; 32])
}

fn assembled(book: &[u8], run: &[u8]) -> Assembly {
    assemble(
        book,
        run,
        &mut [0; 2048],
        &mut [0; 2176],
        &mut [0; 32],
        &mut [0; 256],
        &mut [0; 96],
    )
}

fn found(book: &[u8], item: &Item) -> Found {
    find(book, &item.forward, item.phi, item.psi, &mut [0; 2048])
}

fn good(n: u64, m: u64, items: u64, units: u64) -> Checking {
    Checking {
        code: 0,
        place: 0,
        n,
        m,
        items,
        units,
    }
}

/// The counts of outcomes of a book's moves.
fn outcome_counts(book: &[u8]) -> Vec<u32> {
    let mut table = [0; 2048];
    let read = check(book, &mut table, &mut [0; 2176], &mut [0; 32]);
    table[..(read.n * read.m) as usize]
        .iter()
        .map(|mask| mask.count_ones())
        .collect()
}

#[test]
fn largest() {
    let book = largest_book();
    assert_eq!(book.len(), 31_178);
    assert_eq!(checked(&book), good(64, 32, 64, 65_536));
    assert!(outcome_counts(&book).iter().all(|&count| count == 1));
    let found = assembled(&book, &largest_run());
    assert_eq!((found.code, found.commands, found.legs), (0, 32, 4));
    assert!((32 * 969..=32 * 1000).contains(&found.sum), "{found:?}");
}

#[test]
fn branching() {
    let book = branching_book();
    assert_eq!(book.len(), 31_110);
    assert_eq!(checked(&book), good(64, 32, 64, 65_536));
    let counts = outcome_counts(&book);
    assert!(counts.iter().all(|&count| count >= 1));
    assert!(counts.iter().filter(|&&count| count >= 2).count() > 1500);
    let found = assembled(&book, &branching_run());
    assert_eq!((found.code, found.commands, found.legs), (0, 32, 4));
    assert_eq!(found.sum, 32);

    // The items are no empty promises: half the starts come back from phi,
    // and one reverse command changed is turned down.
    let (mut table, mut slots) = ([0; 2048], [0; 2176]);
    check(&book, &mut table, &mut slots, &mut [0; 32]);
    let device = Device {
        table: table.to_vec(),
        ..Device::empty(64, 32)
    };
    for slot in slots.chunks(34) {
        let (forward, reverse) = (&slot[2..10], &slot[10..18]);
        let phi = u64::from_le_bytes(slot[18..26].try_into().unwrap());
        assert_eq!(device.effective_starts(forward, phi).count_ones(), 30);
        let wrong = [&reverse[..7], &[reverse[7] ^ 1]].concat();
        assert_ne!(device.undone_starts(forward, &wrong, phi), u64::MAX);
    }
}

#[test]
fn ridge() {
    assert_eq!(ridge_device().table, masks().ridge);
    let book = ridge_book();
    assert_eq!(checked(&book), good(64, 16, 45, 1_724));
    assert_eq!(
        outcome_counts(&book)
            .iter()
            .filter(|&&count| count > 0)
            .count(),
        616
    );
    let run = ridge_run();
    assert_eq!(run[4], 20);
    let found = assembled(&book, &run);
    assert_eq!(found.code, 0);
    assert!(found.legs >= 10, "{found:?}");
    println!("ridge: {} commands, {} legs", found.commands, found.legs);
}

#[test]
fn portable() {
    let device = Device {
        table: masks().portable.to_vec(),
        ..Device::empty(32, 12)
    };
    let item = |reverse: &[u8]| Item {
        forward: vec![5],
        reverse: reverse.to_vec(),
        phi: all(32),
        psi: 1 << 17 | 1 << 25,
    };
    let judged = |reverse: &[u8]| checked(&book_bytes(&device, &[item(reverse)]));
    assert_eq!(judged(&[11, 1, 10]), good(32, 12, 1, 8));
    let wrong = judged(&[1]);
    assert_eq!((wrong.code, wrong.place, wrong.units), (8, 5_382, 2));

    // The same is found, in a book without items.
    let found = found(&book_bytes(&device, &[]), &item(&[]));
    assert_eq!((found.code, found.count), (0, 3));
    assert_eq!(found.commands, [11, 1, 10]);
}

/// Power 3 was set from power 0: back by one command of weight 10, or by three of weight 3.
#[test]
fn weights() {
    let mut device = ridge_device();
    let item = |reverse: &[u8]| Item {
        forward: vec![7],
        reverse: reverse.to_vec(),
        phi: u64::MAX,
        psi: 0x000F_000F_000F_000F,
    };
    let items = [item(&[4]), item(&[15, 15, 15])];
    let run = run_bytes(&[7], &[1, u64::MAX]);
    let mut answer = |power, step, items: &[Item]| {
        device.weights[4..8].fill(power);
        device.weights[14..].fill(step);
        let found = assembled(&book_bytes(&device, items), &run);
        assert_eq!(found.code, 0);
        (found.commands, found.sum)
    };
    assert_eq!(answer(1, 1, &items), (1, 1));
    assert_eq!(answer(10, 3, &items), (3, 9));
    // Equal sums: the lower item, whatever its number of commands.
    assert_eq!(answer(9, 3, &items), (1, 9));
    let [one, three] = items;
    assert_eq!(answer(9, 3, &[three, one]), (3, 9));
}

#[test]
fn q() {
    let book = q_book();
    assert_eq!(book.len(), 225);
    assert_eq!(checked(&book), good(3, 3, 5, 27));
    let found = assembled(&book, &q5_run());
    assert_eq!((found.code, found.commands, found.legs), (0, 1, 1));
}

#[test]
fn grown() {
    for n in [1, 2, 3, 17, 63, 64] {
        for items in [0, 1, 40, 64] {
            for (k, r) in [(1, 0), (1, 1), (2, 5), (8, 3), (8, 8), (1, 8)] {
                let book = grown_book(n, items, k, r);
                let units = items * n * (k + r);
                let expected = good(n as u64, 32, items as u64, units as u64);
                assert_eq!(checked(&book), expected);
            }
        }
    }
    assert_eq!(grown_book(64, 64, 8, 8).len(), 31_110);
}

#[test]
fn forecasts() {
    for (book, units, largest_r) in [
        (largest_book(), 65_536, 8),
        (branching_book(), 65_536, 8),
        (ridge_book(), 1_724, 3),
        (q_book(), 27, 2),
        (grown_book(7, 5, 2, 6), 280, 6),
    ] {
        for i in [0, 5, 32] {
            let found = forecast(&book, i);
            assert_eq!((found.code, found.place, found.units), (0, 0, units));
            assert_eq!((found.plan_bytes, found.legs), (i * largest_r, i));
        }
    }
}

/// What each item of the ridge repeater's book asks for: its own reverse, or one that is shorter or
/// lower.
#[test]
fn finds() {
    let book = ridge_book();
    let (mut slots, mut own) = ([0; 2176], 0);
    let items = check(&book, &mut [0; 2048], &mut slots, &mut [0; 32]).items;
    for slot in slots.chunks(34).take(items as usize) {
        let (k, r) = (usize::from(slot[0]), usize::from(slot[1]));
        let item = Item {
            forward: slot[2..2 + k].to_vec(),
            reverse: slot[10..10 + r].to_vec(),
            phi: u64::from_le_bytes(slot[18..26].try_into().unwrap()),
            psi: u64::from_le_bytes(slot[26..].try_into().unwrap()),
        };
        let found = found(&book, &item);
        let count = found.count as usize;
        assert_eq!((found.code, found.place), (0, 0));
        assert!((count, &found.commands[..count]) <= (r, &item.reverse));
        own += usize::from(found.commands[..count] == item.reverse);
    }
    println!("ridge: {own} of {items} items have the reverse that is found");
    assert!(own >= 40, "{own}");
}

#[test]
fn a_seed_gives_the_same_input() {
    for seed in (0..300).chain([u64::MAX, 1 << 40]) {
        assert!(input(seed) == input(seed), "seed {seed}");
        assert!(find_input(seed) == find_input(seed), "seed {seed}");
    }
    assert!(input(1) != input(2));
    assert!(find_input(1) != find_input(2));
}

/// Each outcome of finding a reverse has its share of the random inputs.
#[test]
fn shares_of_finds() {
    const SEEDS: u64 = 20_000;
    let (mut codes, mut counts) = ([0; 16], [0; 4]);
    for seed in 0..SEEDS {
        let FindInput {
            book,
            forward,
            phi,
            psi,
            mut table,
            ..
        } = find_input(seed);
        let found = find(&book, &forward, phi, psi, &mut table);
        codes[found.code as usize] += 1;
        counts[found.count as usize] += u64::from(found.code == 0);
    }
    let faulty: u64 = codes[2..=7].iter().sum::<u64>() + codes[13];
    let share = |count: u64| count as f64 * 100.0 / SEEDS as f64;
    for (count, &times) in counts.iter().enumerate() {
        println!("{count} commands: {:.1} %", share(times));
        assert!(share(times) >= 7.0, "{count} commands: {times}");
    }
    for (name, times, least) in [
        ("code 1", codes[1], 3.0),
        ("a faulty book", faulty, 5.0),
        ("code 8", codes[8], 2.5),
        ("code 12", codes[12], 2.5),
        ("code 14", codes[14], 6.0),
        ("code 15", codes[15], 6.0),
    ] {
        println!("{name}: {:.1} %", share(times));
        assert!(share(times) >= least, "{name}: {times}");
    }
    println!("{SEEDS} finds: codes {codes:?}");
}
