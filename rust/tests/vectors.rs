//! The cases that a second program has answered, against the library.

use rollback::calls::{self, Leg, Lookup};
use rollback_cases::device::{run_bytes, slot_bytes, Item};
use rollback_cases::{
    assemble_cases, book_cases, find_cases, forecast_cases, masks, page_cases, q_book, small_cases,
    write_cases,
};

const FILL: u8 = 0xA5;

/// Reading or checking; gives the numbers of the answer.
type Call = fn(&[u8], &mut [u64], &mut [u8], &mut [u16]) -> Vec<u64>;

fn read(book: &[u8], table: &mut [u64], slots: &mut [u8], weights: &mut [u16]) -> Vec<u64> {
    let r = calls::read(book, table, slots, weights);
    vec![r.code, r.place, r.n, r.m, r.items]
}

fn check(book: &[u8], table: &mut [u64], slots: &mut [u8], weights: &mut [u16]) -> Vec<u64> {
    let r = calls::check(book, table, slots, weights);
    vec![r.code, r.place, r.n, r.m, r.items, r.units]
}

#[test]
fn books() {
    let cases = book_cases();
    for (number, case) in cases.iter().enumerate() {
        let judge = |call: Call, expected: &[u64]| {
            let (mut table, mut slots) = (case.table.clone(), case.slots.clone());
            let mut weights = case.weights.clone();
            let answer = call(&case.book, &mut table, &mut slots, &mut weights);
            assert_eq!(answer, expected, "book {number}");
            // Reading leaves what checking does, which the files give.
            assert_eq!(table[..40], case.table_after, "table of book {number}");
            assert_eq!(slots[..102], case.slots_after, "slots of book {number}");
            // A short buffer ends its line.
            let (given, rest) = weights.split_at(case.weights_after.len());
            assert_eq!(given, case.weights_after, "weights of book {number}");
            assert_eq!(
                rest,
                &case.weights[given.len()..],
                "weights of book {number} past the stated length"
            );
        };
        judge(read, &case.reading);
        judge(check, &case.checking);
        // What was made against what is forecast.
        let made = case.checking[5];
        let units = calls::forecast(&case.book, 0).units;
        match case.checking[0] {
            0 => assert_eq!(made, units, "book {number}"),
            8 | 12 => assert!(made <= units, "book {number}"),
            _ => assert_eq!(made, 0, "book {number}"),
        }
    }
    println!("books: {} cases read and checked", cases.len());
    assert_eq!(cases.len(), 600);
}

#[test]
fn forecasts() {
    let cases = forecast_cases();
    for (number, case) in cases.iter().enumerate() {
        let r = calls::forecast(&case.book, case.i);
        assert_eq!(
            [r.code, r.place, r.units, r.plan_bytes, r.legs],
            case.answer,
            "case {number}"
        );
    }
    println!("forecasts: {} cases", cases.len());
    assert_eq!(cases.len(), 900);
}

#[test]
fn reverses() {
    let cases = find_cases();
    for (number, case) in cases.iter().enumerate() {
        let mut table = case.table.clone();
        let r = calls::find(&case.book, &case.forward, case.phi, case.psi, &mut table);
        assert_eq!(
            [r.code, r.place, r.count],
            [case.code, case.place, case.count],
            "case {number}"
        );
        assert_eq!(r.commands, case.commands, "commands of case {number}");
        assert_eq!(table[..16], case.table_after, "table of case {number}");

        // The book's own codes and the table are checking's with the same table.
        let mut table_after = case.table.clone();
        let (mut slots, mut weights) = ([0; calls::SLOTS_LEN], [0; calls::WEIGHTS_LEN]);
        let checked = calls::check(&case.book, &mut table_after, &mut slots, &mut weights);
        if checked.code != 0 {
            assert_eq!(
                [r.code, r.place],
                [checked.code, checked.place],
                "case {number}"
            );
        }
        assert!(table == table_after, "table of case {number}");

        // What was found makes an accepted item.
        if r.code == 0 {
            let item = Item {
                forward: case.forward.clone(),
                reverse: r.commands[..r.count as usize].to_vec(),
                phi: case.phi,
                psi: case.psi,
            };
            slots[..calls::SLOT_LEN].copy_from_slice(&slot_bytes(&item));
            let mut book = [0; calls::OUT_LEN];
            let (n, m) = (checked.n, checked.m);
            let w = calls::write(n, m, 1, &table, &slots, &weights, &mut book);
            let book = &book[..w.length as usize];
            let made = calls::check(book, &mut table, &mut slots, &mut weights);
            assert_eq!([made.code, made.items], [0, 1], "case {number}");
        }
    }
    println!("reverses: {} cases", cases.len());
    assert_eq!(cases.len(), 900);
}

#[test]
fn plans() {
    let cases = assemble_cases();
    for (number, case) in cases.iter().enumerate() {
        let mut plan_after = [FILL; calls::PLAN_LEN];
        plan_after[..case.plan.len()].copy_from_slice(&case.plan);
        let mut legs_after = [FILL; calls::LEGS_LEN];
        legs_after[..3 * case.leg_list.len()].copy_from_slice(case.leg_list.as_flattened());
        let (mut table, mut slots) = ([0; calls::TABLE_LEN], [0; calls::SLOTS_LEN]);
        let mut weights = [0; calls::WEIGHTS_LEN];

        let (mut plan, mut legs) = ([FILL; calls::PLAN_LEN], [FILL; calls::LEGS_LEN]);
        let (book, run) = (&case.book, &case.run);
        let r = calls::assemble(
            book,
            run,
            &mut table,
            &mut slots,
            &mut weights,
            &mut plan,
            &mut legs,
        );
        let head = [case.code, case.place, case.commands, case.legs, case.sum];
        assert_eq!(
            [r.code, r.place, r.commands, r.legs, r.sum],
            head,
            "case {number}"
        );
        assert_eq!(r.fewest, case.fewest, "numbers of case {number}");
        assert_eq!(plan, plan_after, "plan of case {number}");
        assert_eq!(legs, legs_after, "legs of case {number}");
        if r.code == 0 {
            let forecast = calls::forecast(book, u64::from(run[4]));
            assert_eq!(forecast.code, 0, "case {number}");
            assert!(r.commands <= forecast.plan_bytes, "case {number}");
            assert!(r.legs <= forecast.legs, "case {number}");
        }

        let mut plan = [FILL; calls::PLAN_LEN];
        let mut legs = [Leg {
            item: FILL,
            upper: FILL,
            lower: FILL,
        }; calls::LEG_STRUCTS_LEN];
        let s = calls::assemble_legs(
            book,
            run,
            &mut table,
            &mut slots,
            &mut weights,
            &mut plan,
            &mut legs,
        );
        assert_eq!(s, r, "case {number} with structs");
        assert_eq!(plan, plan_after, "plan of case {number} with structs");
        let legs = legs.map(|leg| [leg.item, leg.upper, leg.lower]);
        assert_eq!(legs.as_flattened(), legs_after, "structs of case {number}");
    }
    println!(
        "plans: {} cases assembled, with legs as bytes and as structs",
        cases.len()
    );
    assert_eq!(cases.len(), 900);
}

/// Q5, Q6 and Q8 of document 01 with leg structs: 32 are lent, then 31, which is code 1.
#[test]
fn leg_structs() {
    const HELD: Leg = Leg {
        item: 9,
        upper: 8,
        lower: 7,
    };
    let leg = |[item, upper, lower]: [u8; 3]| Leg { item, upper, lower };
    let book = q_book();
    let runs: [(Vec<u8>, &[[u8; 3]]); 3] = [
        (run_bytes(&[2, 1], &[7, 7, 7]), &[[2, 2, 0]]),
        (run_bytes(&[2, 1], &[7, 2, 7]), &[[2, 2, 0]]),
        (run_bytes(&[1, 1], &[1, 7, 7]), &[[3, 2, 1], [1, 1, 0]]),
    ];
    for (number, (run, chain)) in runs.iter().enumerate() {
        for room in [calls::LEG_STRUCTS_LEN, calls::LEG_STRUCTS_LEN - 1] {
            let (mut table, mut slots) = ([5; calls::TABLE_LEN], [5; calls::SLOTS_LEN]);
            let (mut weights, mut plan) = ([5; calls::WEIGHTS_LEN], [FILL; calls::PLAN_LEN]);
            let mut legs = [HELD; calls::LEG_STRUCTS_LEN];
            let r = calls::assemble_legs(
                &book,
                run,
                &mut table,
                &mut slots,
                &mut weights,
                &mut plan,
                &mut legs[..room],
            );
            let head = [r.code, r.place, r.commands, r.legs, r.sum];
            let (mut plan_after, mut legs_after) = ([FILL; calls::PLAN_LEN], [HELD; 32]);
            if room < calls::LEG_STRUCTS_LEN {
                assert_eq!(head, [1, 0, 0, 0, 0], "run {number}");
                assert_eq!(table, [5; calls::TABLE_LEN], "run {number}");
                assert_eq!(slots, [5; calls::SLOTS_LEN], "run {number}");
                assert_eq!(weights, [5; calls::WEIGHTS_LEN], "run {number}");
            } else {
                assert_eq!(head, [0, 0, 1, chain.len() as u64, 1], "run {number}");
                plan_after[0] = 0;
                for (held, &found) in legs_after.iter_mut().zip(*chain) {
                    *held = leg(found);
                }
            }
            assert_eq!(plan, plan_after, "plan of run {number}");
            assert_eq!(legs, legs_after, "structs of run {number}");
        }
    }
}

#[test]
fn plans_with_a_scratch() {
    let cases = small_cases();
    for (number, small) in cases.iter().enumerate() {
        let case = &small.assemble;
        let (book, run) = (&case.book, &case.run);
        let mut scratch = small.scratch.clone();
        let (mut plan, mut legs) = (small.plan.clone(), small.legs.clone());
        let r = calls::assemble_small(book, run, &mut scratch, &mut plan, &mut legs);
        let head = [case.code, case.place, case.commands, case.legs, case.sum];
        assert_eq!(
            [r.code, r.place, r.commands, r.legs, r.sum],
            head,
            "case {number}"
        );
        assert_eq!(r.fewest, case.fewest, "numbers of case {number}");
        let mut plan_after = small.plan.clone();
        plan_after[..case.plan.len()].copy_from_slice(&case.plan);
        assert_eq!(plan, plan_after, "plan of case {number}");
        let mut legs_after = small.legs.clone();
        legs_after[..3 * case.leg_list.len()].copy_from_slice(case.leg_list.as_flattened());
        assert_eq!(legs, legs_after, "legs of case {number}");
        if r.code == 1 {
            assert_eq!(scratch[..8], small.scratch_after, "case {number}");
            assert_eq!(scratch, small.scratch, "scratch of case {number}");
        } else {
            assert!(small.scratch_after.is_empty(), "case {number}");
            let past = &small.scratch[calls::SCRATCH_LEN..];
            assert_eq!(&scratch[calls::SCRATCH_LEN..], past, "case {number}");
        }

        // The first form, unless the scratch is short.
        let (mut plan_after, mut legs_after) = (small.plan.clone(), small.legs.clone());
        if small.scratch.len() >= calls::SCRATCH_LEN {
            let first = calls::assemble(
                book,
                run,
                &mut [0; calls::TABLE_LEN],
                &mut [0; calls::SLOTS_LEN],
                &mut [0; calls::WEIGHTS_LEN],
                &mut plan_after,
                &mut legs_after,
            );
            assert_eq!(r, first, "case {number}");
        }
        assert!(
            (plan, legs) == (plan_after, legs_after),
            "buffers of case {number}"
        );
    }
    println!("with a scratch: {} cases", cases.len());
    assert_eq!(cases.len(), 700);
}

#[test]
fn pages() {
    let cases = page_cases();
    for (number, case) in cases.iter().enumerate() {
        let (mut table, mut slots) = (case.table.clone(), case.slots.clone());
        let mut weights = case.weights.clone();
        let (mut plan, mut legs) = (case.plan.clone(), case.legs.clone());
        let mut page = case.page.clone();
        let (book, run) = (&case.book, &case.run);
        let r = calls::page(
            book,
            run,
            &mut table,
            &mut slots,
            &mut weights,
            &mut plan,
            &mut legs,
            &mut page,
        );
        let a = r.assembly;
        let head = [a.code, a.place, a.commands, a.legs, a.sum, r.length];
        assert_eq!(head, case.head, "case {number}");
        assert_eq!(a.fewest, case.fewest, "numbers of case {number}");
        let (given, rest) = page.split_at(case.page_after.len());
        assert_eq!(given, case.page_after, "page of case {number}");
        assert_eq!(
            rest,
            &case.page[given.len()..],
            "page of case {number} past its lines"
        );
        assert_eq!(
            r.text(&page).map(|text| text.len() as u64),
            Some(r.length),
            "case {number}"
        );

        // All else is assembling's, unless the page is short.
        let (mut table_after, mut slots_after) = (case.table.clone(), case.slots.clone());
        let mut weights_after = case.weights.clone();
        let (mut plan_after, mut legs_after) = (case.plan.clone(), case.legs.clone());
        if page.len() >= calls::PAGE_LEN {
            let (table, slots) = (&mut table_after, &mut slots_after);
            let (plan, legs) = (&mut plan_after, &mut legs_after);
            let again = calls::assemble(book, run, table, slots, &mut weights_after, plan, legs);
            assert_eq!(a, again, "case {number}");
        }
        let after = (table, slots, weights, plan, legs);
        let expected = (
            table_after,
            slots_after,
            weights_after,
            plan_after,
            legs_after,
        );
        assert!(after == expected, "buffers of case {number}");
    }
    println!("pages: {} cases", cases.len());
    assert_eq!(cases.len(), 700);
}

#[test]
fn writing() {
    let cases = write_cases();
    for (number, case) in cases.iter().enumerate() {
        let mut out = case.out.clone();
        let r = calls::write(
            case.n,
            case.m,
            case.items,
            &case.table,
            &case.slots,
            &case.weights,
            &mut out,
        );
        let expected = [case.code, case.place, case.length];
        assert_eq!([r.code, r.place, r.length], expected, "case {number}");
        let (given, rest) = out.split_at(case.out_after.len());
        assert_eq!(given, case.out_after, "output of case {number}");
        assert_eq!(
            rest,
            &case.out[given.len()..],
            "output of case {number} past the book"
        );
    }
    println!("writing: {} cases", cases.len());
    assert_eq!(cases.len(), 500);
}

fn looks_up(call: fn(u64, u64) -> Lookup, commands: u64, masks: &[u64]) {
    for (entry, &mask) in (0..).zip(masks) {
        let r = call(entry / commands, entry % commands);
        assert_eq!([r.code, r.place, r.mask], [0, 0, mask], "entry {entry}");
    }
    println!("lookups: {} masks", masks.len());
}

#[test]
fn ridge() {
    looks_up(calls::ridge, 16, &masks().ridge);
}

#[test]
fn portable() {
    looks_up(calls::portable, 12, &masks().portable);
}
