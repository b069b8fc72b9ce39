//! The program against the plain one: on all cases of the vectors, on the benchmark's books and on
//! random inputs, every result and every byte of every buffer. `ROLLBACK_SEED` is the first seed (0),
//! `ROLLBACK_COUNT` the number of random inputs (30,000).

use rollback_cases::{
    answers, answers_find, assemble_cases, book_cases, find_cases, find_input, forecast_cases,
    input, number_from_env, page_cases, write_cases, FindInput, Input,
};
use rollback_cases::{
    branching_book, branching_run, largest_book, largest_run, q5_run, q_book, ridge_book, ridge_run,
};
use rollback_fast as fast;
use rollback_plain as plain;

answers!(by_fast_program, fast);
answers!(by_plain_program, plain);
answers_find!(found_by_fast_program, fast);
answers_find!(found_by_plain_program, plain);

fn same(input: &Input, name: &str) {
    for (f, p) in by_fast_program(input).iter().zip(&by_plain_program(input)) {
        assert_eq!(f.against(p), [""; 0], "{name}, {}", f.call);
    }
}

fn same_find(input: &FindInput, name: &str) {
    let (f, p) = (found_by_fast_program(input), found_by_plain_program(input));
    assert_eq!(f.against(&p), [""; 0], "{name}");
}

/// All lent buffers with the stated lengths.
fn lent() -> Input {
    Input {
        table: vec![7; 2048],
        slots: vec![8; 2176],
        weights: vec![9; 32],
        plan: vec![201; 256],
        legs: vec![202; 96],
        leg_structs: vec![[203; 3]; 32],
        page: vec![90; 1312],
        ..input(0)
    }
}

#[test]
fn vectors() {
    for (number, case) in book_cases().into_iter().enumerate() {
        let input = Input {
            book: case.book,
            table: case.table,
            slots: case.slots,
            weights: case.weights,
            ..lent()
        };
        same(&input, &format!("book {number}"));
    }
    for (number, case) in forecast_cases().into_iter().enumerate() {
        let input = Input {
            book: case.book,
            i: case.i,
            ..lent()
        };
        same(&input, &format!("forecast {number}"));
    }
    for (number, case) in assemble_cases().into_iter().enumerate() {
        let input = Input {
            book: case.book,
            run: case.run,
            ..lent()
        };
        same(&input, &format!("plan {number}"));
    }
    for (number, case) in page_cases().into_iter().enumerate() {
        let input = Input {
            book: case.book,
            run: case.run,
            table: case.table,
            slots: case.slots,
            weights: case.weights,
            plan: case.plan,
            legs: case.legs,
            page: case.page,
            ..lent()
        };
        same(&input, &format!("page {number}"));
    }
    for (number, case) in find_cases().into_iter().enumerate() {
        let input = FindInput {
            seed: 0,
            book: case.book,
            forward: case.forward,
            phi: case.phi,
            psi: case.psi,
            table: case.table,
        };
        same_find(&input, &format!("find {number}"));
    }
    for (number, case) in write_cases().into_iter().enumerate() {
        let input = Input {
            n: case.n,
            m: case.m,
            items: case.items,
            write_table: case.table,
            write_slots: case.slots,
            write_weights: case.weights,
            out: case.out,
            ..lent()
        };
        same(&input, &format!("writing {number}"));
    }
}

#[test]
fn measured_books() {
    let books = [
        (largest_book(), largest_run()),
        (branching_book(), branching_run()),
        (ridge_book(), ridge_run()),
        (q_book(), q5_run()),
    ];
    for (number, (book, run)) in books.into_iter().enumerate() {
        let mut given = Input {
            book,
            run,
            ..lent()
        };
        same(&given, &format!("book {number}"));
        // Written back.
        let (table, slots, weights) = (&mut given.table, &mut given.slots, &mut given.weights);
        let read = fast::read(&given.book, table, slots, weights);
        let given = Input {
            n: read.n,
            m: read.m,
            items: read.items,
            write_table: given.table.clone(),
            write_slots: given.slots.clone(),
            write_weights: given.weights.clone(),
            out: vec![90; 31_178],
            ..given
        };
        same(&given, &format!("book {number}, written"));
        let out = &by_fast_program(&given)[6].out;
        assert_eq!(
            out[..given.book.len()],
            given.book,
            "book {number}, written"
        );
    }
}

/// For each start alone and for all together, after the first commands of the run.
#[test]
fn finds_in_measured_books() {
    let books = [
        (largest_book(), largest_run()),
        (branching_book(), branching_run()),
        (ridge_book(), ridge_run()),
        (q_book(), q5_run()),
    ];
    for (number, (book, run)) in books.into_iter().enumerate() {
        let n = book[4];
        let all = u64::MAX >> (64 - n);
        let commands = &run[5..5 + usize::from(run[4])];
        for length in 1..=commands.len().min(9) {
            for psi in (0..n).map(|start| 1 << start).chain([all]) {
                let input = FindInput {
                    seed: 0,
                    book: book.clone(),
                    forward: commands[..length].to_vec(),
                    phi: all,
                    psi,
                    table: vec![7; 2048],
                };
                same_find(&input, &format!("book {number}, length {length}, {psi}"));
            }
        }
    }
}

#[test]
fn lookups() {
    for state in 0..70 {
        for command in 0..20 {
            assert_eq!(fast::ridge(state, command), plain::ridge(state, command));
            let found = fast::portable(state, command);
            assert_eq!(found, plain::portable(state, command));
        }
    }
}

#[test]
fn random_inputs() {
    let first = number_from_env("ROLLBACK_SEED", 0);
    let count = number_from_env("ROLLBACK_COUNT", 30_000);
    for seed in first..first + count {
        same(&input(seed), &format!("seed {seed}"));
    }
}

#[test]
fn random_finds() {
    let first = number_from_env("ROLLBACK_SEED", 0);
    let count = number_from_env("ROLLBACK_COUNT", 30_000);
    for seed in first..first + count {
        same_find(&find_input(seed), &format!("seed {seed}"));
    }
}
