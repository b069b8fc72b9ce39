//! Assembling with a scratch against assembling with a table, on random inputs
//! and on the books for measuring.

use rollback_cases::{
    branching_book, branching_run, grown_book, input, largest_book, largest_run, q5_run, q_book,
    ridge_book, ridge_run,
};
use rollback_plain::{assemble, assemble_small, Assembly};
use std::ops::Range;

/// Others than those of the slow program in rollback-cases.
const SEEDS: Range<u64> = 100_000..116_000;

const SHORT: Assembly = Assembly {
    code: 1,
    place: 0,
    commands: 0,
    legs: 0,
    sum: 0,
    fewest: [4_294_967_295; 33],
};

/// Both forms give the same. Neither plan nor legs nor what a scratch has past
/// its 64 masks is touched where they shouldn't be, and what the scratch held
/// doesn't matter.
fn agreed(book: &[u8], run: &[u8], lent: (&[u64], &[u8], &[u8]), name: &str) -> Assembly {
    let (scratch, plan, legs) = lent;
    let (mut plan_after, mut legs_after) = (plan.to_vec(), legs.to_vec());
    let expected = if scratch.len() < 64 {
        SHORT
    } else {
        assemble(
            book,
            run,
            &mut [0; 2048],
            &mut [0; 2176],
            &mut [0; 32],
            &mut plan_after,
            &mut legs_after,
        )
    };
    if expected.code == 1 {
        assert_eq!(expected, SHORT, "{name}");
    }

    // As lent, as left by the first call, and full.
    let mut now = scratch.to_vec();
    for time in 0..3 {
        if time == 2 {
            now.fill(u64::MAX);
        }
        let before = now.clone();
        let (mut plan, mut legs) = (plan.to_vec(), legs.to_vec());
        let found = assemble_small(book, run, &mut now, &mut plan, &mut legs);
        assert_eq!(found, expected, "{name}");
        assert_eq!(plan, plan_after, "plan, {name}");
        assert_eq!(legs, legs_after, "legs, {name}");
        // "the scratch ends free, but untouched on 1"
        let free = if found.code == 1 { 0 } else { 64 };
        assert_eq!(now[free..], before[free..], "scratch, {name}");
    }
    expected
}

#[test]
fn random_inputs() {
    let mut codes = [0; 14];
    let (mut short, mut longer, mut two_legs, mut weighed) = (0, 0, 0, 0);
    for seed in SEEDS {
        let input = input(seed);
        let lent = (&input.scratch[..], &input.plan[..], &input.legs[..]);
        let found = agreed(&input.book, &input.run, lent, &format!("seed {seed}"));
        codes[found.code as usize] += 1;
        short += usize::from(input.scratch.len() < 64);
        longer += usize::from(input.scratch.len() > 64 && found.code == 0);
        two_legs += usize::from(found.legs >= 2);
        weighed += usize::from(found.sum != found.commands);

        // Short ones are refused before anything is read.
        let cut = input.scratch.len().min(63);
        let lent = (&input.scratch[..cut], &input.plan[..], &input.legs[..]);
        let found = agreed(&input.book, &input.run, lent, &format!("cut, seed {seed}"));
        assert_eq!(found.code, 1, "cut, seed {seed}");
    }
    println!("codes {codes:?}, {two_legs} with two legs or more, {weighed} with weights");
    println!("{short} short scratches, {longer} longer ones with a plan");
    assert!(codes.iter().all(|&count| count >= 100), "{codes:?}");
    assert!(two_legs >= 800, "{two_legs}");
    assert!(weighed >= 800, "{weighed}");
    assert!(short >= 400, "{short}");
    assert!(longer >= 400, "{longer}");
}

/// Runs that were made for another book.
#[test]
fn runs_of_other_books() {
    let mut codes = [0; 14];
    for seed in 0..4_000 {
        let (book, other) = (input(seed), input(seed + 1));
        let lent = (&[5; 64][..], &[6; 256][..], &[7; 96][..]);
        let found = agreed(&book.book, &other.run, lent, &format!("seed {seed}"));
        codes[found.code as usize] += 1;
    }
    println!("codes {codes:?}");
    for code in [0, 9, 10, 11] {
        assert!(codes[code] >= 50, "{codes:?}");
    }
}

#[test]
fn books_for_measuring() {
    let lent = (&[5; 64][..], &[6; 256][..], &[7; 96][..]);
    for (name, book, run) in [
        ("largest", largest_book(), largest_run()),
        ("branching", branching_book(), branching_run()),
        ("ridge", ridge_book(), ridge_run()),
        ("q", q_book(), q5_run()),
    ] {
        assert_eq!(agreed(&book, &run, lent, name).code, 0, "{name}");
        // Each with the runs of all.
        for other in [largest_run(), branching_run(), ridge_run(), q5_run()] {
            agreed(&book, &other, lent, name);
        }
        // Cut off anywhere, and a byte more.
        for length in (0..book.len()).step_by(1 + book.len() / 300) {
            agreed(&book[..length], &run, lent, name);
        }
        let longer = [&book[..], &[0]].concat();
        let found = agreed(&longer, &run, lent, name);
        assert_eq!((found.code, found.place), (2, book.len() as u64), "{name}");
    }
    for (n, items, k, r) in [(1, 64, 1, 8), (63, 1, 8, 0), (64, 64, 2, 2), (17, 0, 1, 1)] {
        let book = grown_book(n, items, k, r);
        agreed(&book, &largest_run(), lent, "grown");
    }
}
