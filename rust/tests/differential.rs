//! The library against the plain program on random books and runs, valid and damaged: every result
//! and every byte of every buffer. Finding a reverse has inputs of its own. `ROLLBACK_SEED` is the
//! first seed (0), `ROLLBACK_COUNT` the number of inputs (100,000).

use rollback::calls as verified;
use rollback_cases::device::{slot_bytes, Item};
use rollback_cases::{
    answers, answers_find, find_input, input, number_from_env, After, FindInput, Input,
};
use rollback_plain as plain;

answers!(by_library, verified);
answers!(by_plain_program, plain);
answers_find!(found_by_library, verified);
answers_find!(found_by_plain_program, plain);

/// The same for assembling with a scratch.
macro_rules! answers_small {
    ($name:ident, $program:ident) => {
        fn $name(input: &Input) -> After {
            let (book, run) = (&input.book, &input.run);
            let mut a = After {
                call: "assemble_small",
                scratch: input.scratch.clone(),
                plan: input.plan.clone(),
                legs: input.legs.clone(),
                ..After::default()
            };
            let r = $program::assemble_small(book, run, &mut a.scratch, &mut a.plan, &mut a.legs);
            a.result = vec![r.code, r.place, r.commands, r.legs, r.sum];
            a.result.extend(r.fewest.map(u64::from));
            if r.code != 1 {
                // Its 64 masks are free.
                a.scratch.drain(..64);
            }
            a
        }
    };
}
answers_small!(small_by_library, verified);
answers_small!(small_by_plain_program, plain);

const ALL: [u64; 14] = [0, 1, 2, 3, 4, 5, 6, 7, 8, 9, 10, 11, 12, 13];

/// The calls with the codes that each has.
const CODES: [(&str, &[u64]); 10] = [
    ("read", &[0, 1, 2, 3, 4, 5, 6, 7, 13]),
    ("check", &[0, 1, 2, 3, 4, 5, 6, 7, 8, 12, 13]),
    ("forecast", &[0, 2, 3, 4, 5, 6, 7, 9, 13]),
    ("assemble", &ALL),
    ("assemble_legs", &ALL),
    ("page", &ALL),
    ("write", &[0, 1, 5, 7]),
    ("ridge", &[0, 5]),
    ("portable", &[0, 5]),
    ("assemble_small", &ALL),
];

/// How often each of these codes was met.
fn shown(codes: &[u64], met: &[u64]) -> String {
    let counts = codes
        .iter()
        .map(|&code| format!("{code}: {}", met[code as usize]));
    counts.collect::<Vec<_>>().join(", ")
}

/// The units that checking made and the plan, against the forecast for runs as long as the one at hand.
fn keeps_to_the_forecast(input: &Input, answers: &[After; 9]) {
    let [read, check, _, assemble, ..] = answers;
    let (seed, i) = (input.seed, input.run.get(4).map_or(0, |&i| u64::from(i)));
    let f = verified::forecast(&input.book, i);
    match (read.result[0], i) {
        (0, 0..=32) => assert_eq!([f.code, f.place, f.legs], [0, 0, i], "seed {seed}"),
        (0, _) => assert_eq!([f.code, f.place], [9, 0], "seed {seed}"),
        // Reading's code 1 says nothing of the book.
        (1, _) => {}
        _ => assert_eq!([f.code, f.place], read.result[..2], "seed {seed}"),
    }
    assert!(f.units <= 65_536, "seed {seed}");

    let (code, made) = (check.result[0], check.result[5]);
    let units = verified::forecast(&input.book, 0).units;
    match code {
        0 => assert_eq!(made, units, "seed {seed}"),
        8 | 12 => assert!(made <= units, "seed {seed}"),
        _ => assert_eq!(made, 0, "seed {seed}"),
    }
    if let [0, _, commands, legs, ..] = assemble.result[..] {
        assert!(commands <= f.plan_bytes, "seed {seed}");
        assert!(legs <= f.legs, "seed {seed}");
    }
}

/// Assembling with a scratch, against the first form: result, plan and legs with buffers of the stated
/// lengths, plan and legs lent alike. With the lengths at hand it is that, or code 1 with all untouched.
fn answers_as_the_first_form(input: &Input, with_lengths_at_hand: &After) {
    let seed = input.seed;
    let (book, run) = (&input.book, &input.run);
    let mut plan = input.plan.clone();
    plan.resize(verified::PLAN_LEN, 0x5A);
    let mut legs = input.legs.clone();
    legs.resize(verified::LEGS_LEN, 0x5A);
    let mut scratch = input.scratch.clone();
    scratch.resize(verified::SCRATCH_LEN, u64::MAX);

    let (mut small_plan, mut small_legs) = (plan.clone(), legs.clone());
    let small = verified::assemble_small(book, run, &mut scratch, &mut small_plan, &mut small_legs);
    let mut table = vec![0; verified::TABLE_LEN];
    let mut slots = vec![0; verified::SLOTS_LEN];
    let mut weights = vec![0; verified::WEIGHTS_LEN];
    let first = verified::assemble(
        book,
        run,
        &mut table,
        &mut slots,
        &mut weights,
        &mut plan,
        &mut legs,
    );
    assert_eq!(small, first, "seed {seed}");
    assert_eq!(small_plan, plan, "seed {seed}");
    assert_eq!(small_legs, legs, "seed {seed}");

    let a = with_lengths_at_hand;
    let is_short = input.scratch.len() < verified::SCRATCH_LEN
        || input.plan.len() < verified::PLAN_LEN
        || input.legs.len() < verified::LEGS_LEN;
    if is_short {
        assert_eq!(a.result[..5], [1, 0, 0, 0, 0], "seed {seed}");
        assert_eq!(
            a.result[5..],
            [u64::from(rollback::NONE); 33],
            "seed {seed}"
        );
        assert_eq!(a.scratch, input.scratch, "seed {seed}");
        assert_eq!(a.plan, input.plan, "seed {seed}");
        assert_eq!(a.legs, input.legs, "seed {seed}");
    } else {
        let mut expected = vec![
            first.code,
            first.place,
            first.commands,
            first.legs,
            first.sum,
        ];
        expected.extend(first.fewest.map(u64::from));
        assert_eq!(a.result, expected, "seed {seed}");
        let past = &input.scratch[verified::SCRATCH_LEN..];
        assert_eq!(a.scratch, past, "seed {seed}");
        let (given, rest) = a.plan.split_at(verified::PLAN_LEN);
        assert_eq!(given, plan, "seed {seed}");
        assert_eq!(rest, &input.plan[verified::PLAN_LEN..], "seed {seed}");
        let (given, rest) = a.legs.split_at(verified::LEGS_LEN);
        assert_eq!(given, legs, "seed {seed}");
        assert_eq!(rest, &input.legs[verified::LEGS_LEN..], "seed {seed}");
    }
}

#[test]
fn the_library_answers_as_the_plain_program() {
    let first = number_from_env("ROLLBACK_SEED", 0);
    let count = number_from_env("ROLLBACK_COUNT", 100_000);
    let (mut compared, mut differ) = (0, 0);
    let mut met = [[0; ALL.len()]; CODES.len()];
    for seed in first..first + count {
        let given = input(seed);
        let before = given.clone();
        let (library, plain) = (by_library(&given), by_plain_program(&given));
        let small = (small_by_library(&given), small_by_plain_program(&given));
        let pairs = library.iter().zip(&plain).chain([(&small.0, &small.1)]);
        for (call, (v, p)) in pairs.enumerate() {
            let differences = v.against(p);
            for difference in differences.iter().filter(|_| differ < 20) {
                println!("seed {seed}, {}: {difference}", v.call);
            }
            differ += u64::from(!differences.is_empty());
            compared += 1;
            met[call][p.result[0] as usize] += 1;
        }
        keeps_to_the_forecast(&given, &library);
        answers_as_the_first_form(&given, &small.0);
        // What a call only reads stays too.
        assert!(
            given == before,
            "seed {seed}: a call changed what it only reads"
        );
    }

    for ((call, codes), met) in CODES.iter().zip(&met) {
        println!("{call}: codes {}", shown(codes, met));
    }
    let total: [u64; ALL.len()] = std::array::from_fn(|code| met.iter().map(|met| met[code]).sum());
    println!(
        "{count} inputs, seeds {first} to {}: {compared} calls compared, {differ} differ; codes {}",
        first + count - 1,
        shown(&ALL, &total)
    );
    assert_eq!(differ, 0);
    for ((call, codes), met) in CODES.iter().zip(&met) {
        let missed = codes
            .iter()
            .find(|&&code| met[code as usize] == 0 && count >= 100_000);
        assert_eq!(missed, None, "{call} never met this code");
    }
}

/// What was found, against checking: its codes and places for the book and its table; and the item that
/// the reverse makes is accepted.
fn keeps_to_checking(input: &FindInput, found: &After) {
    let seed = input.seed;
    let (code, place) = (found.result[0], found.result[1]);
    let mut table = input.table.clone();
    let (mut slots, mut weights) = ([0; verified::SLOTS_LEN], [0; verified::WEIGHTS_LEN]);
    let checked = verified::check(&input.book, &mut table, &mut slots, &mut weights);
    assert!(table == found.table, "seed {seed}");
    if checked.code != 0 {
        assert_eq!([code, place], [checked.code, checked.place], "seed {seed}");
    }
    if code != 0 {
        assert_eq!(found.result[2..], [0; 4], "seed {seed}");
        return;
    }
    let reverse = found.result[3..].iter().map(|&command| command as u8);
    let item = Item {
        forward: input.forward.clone(),
        reverse: reverse.take(found.result[2] as usize).collect(),
        phi: input.phi,
        psi: input.psi,
    };
    slots[..verified::SLOT_LEN].copy_from_slice(&slot_bytes(&item));
    let mut book = [0; verified::OUT_LEN];
    let (n, m) = (checked.n, checked.m);
    let w = verified::write(n, m, 1, &table, &slots, &weights, &mut book);
    let book = &book[..w.length as usize];
    let made = verified::check(book, &mut table, &mut slots, &mut weights);
    assert_eq!([made.code, made.items], [0, 1], "seed {seed}");
}

#[test]
fn the_library_finds_as_the_plain_program() {
    const CODES: [u64; 13] = [0, 1, 2, 3, 4, 5, 6, 7, 8, 12, 13, 14, 15];
    let first = number_from_env("ROLLBACK_SEED", 0);
    let count = number_from_env("ROLLBACK_COUNT", 100_000);
    let mut differ = 0;
    let (mut met, mut lengths) = ([0; 16], [0; 4]);
    for seed in first..first + count {
        let given = find_input(seed);
        let before = given.clone();
        let (library, plain) = (found_by_library(&given), found_by_plain_program(&given));
        let differences = library.against(&plain);
        for difference in differences.iter().filter(|_| differ < 20) {
            println!("seed {seed}, find: {difference}");
        }
        differ += u64::from(!differences.is_empty());
        met[plain.result[0] as usize] += 1;
        if plain.result[0] == 0 {
            lengths[plain.result[2] as usize] += 1;
        }
        keeps_to_checking(&given, &library);
        assert!(
            given == before,
            "seed {seed}: find changed what it only reads"
        );
    }
    println!("find: codes {}", shown(&CODES, &met));
    println!(
        "find: {count} inputs, seeds {first} to {}: {differ} differ; reverses of 0, 1, 2 and 3 commands: {lengths:?}",
        first + count - 1
    );
    assert_eq!(differ, 0);
    if count >= 100_000 {
        assert!(lengths.iter().all(|&found| found > 0), "{lengths:?}");
        let missed = CODES.iter().find(|&&code| met[code as usize] == 0);
        assert_eq!(missed, None, "find never met this code");
    }
}
