//! Every case that a second program has answered.

use rollback_cases::{
    assemble_cases, book_cases, find_cases, forecast_cases, masks, page_cases, small_cases,
    write_cases,
};
use rollback_plain::{
    assemble, assemble_legs, assemble_small, check, find, forecast, page, portable, read, ridge,
    write, Found, Leg, Lookup,
};

fn finds(lookup: fn(u64, u64) -> Lookup, commands: u64, masks: &[u64]) {
    for (entry, &mask) in (0..).zip(masks) {
        let found = lookup(entry / commands, entry % commands);
        assert_eq!(
            (found.code, found.place, found.mask),
            (0, 0, mask),
            "entry {entry}"
        );
    }
}

#[test]
fn ridge_masks_are_the_same() {
    finds(ridge, 16, &masks().ridge);
}

#[test]
fn portable_masks_are_the_same() {
    finds(portable, 12, &masks().portable);
}

#[test]
fn books_are_read_and_checked() {
    let cases = book_cases();
    assert_eq!(cases.len(), 600);
    for (number, case) in cases.iter().enumerate() {
        let before = || (case.table.clone(), case.slots.clone(), case.weights.clone());
        let (mut table, mut slots, mut weights) = before();
        let found = read(&case.book, &mut table, &mut slots, &mut weights);
        let found = [found.code, found.place, found.n, found.m, found.items];
        assert_eq!(found, case.reading, "reading, case {number}");
        let after_reading = (table, slots, weights);

        let (mut table, mut slots, mut weights) = before();
        let found = check(&case.book, &mut table, &mut slots, &mut weights);
        let found = [
            found.code,
            found.place,
            found.n,
            found.m,
            found.items,
            found.units,
        ];
        assert_eq!(found, case.checking, "checking, case {number}");
        assert_eq!(table[..40], case.table_after, "table, case {number}");
        assert_eq!(slots[..102], case.slots_after, "slots, case {number}");
        let lent = weights.len().min(32);
        assert_eq!(
            weights[..lent],
            case.weights_after,
            "weights, case {number}"
        );
        // Checking leaves what reading leaves.
        assert_eq!((table, slots, weights), after_reading, "case {number}");

        // What is past the book's own entries, slots and weights stays.
        let [code, _, n, m, items] = case.reading;
        let (entries, bytes, elements) = if code == 0 {
            (n * m, 34 * items, m)
        } else {
            (0, 0, 0)
        };
        let (entries, bytes) = (entries as usize, bytes as usize);
        let elements = elements as usize;
        assert_eq!(
            after_reading.2[elements..],
            case.weights[elements..],
            "case {number}"
        );
        assert_eq!(
            after_reading.0[entries..],
            case.table[entries..],
            "case {number}"
        );
        assert_eq!(
            after_reading.1[bytes..],
            case.slots[bytes..],
            "case {number}"
        );
    }
}

#[test]
fn checks_are_forecast() {
    let cases = forecast_cases();
    assert_eq!(cases.len(), 900);
    for (number, case) in cases.iter().enumerate() {
        let found = forecast(&case.book, case.i);
        let found = [
            found.code,
            found.place,
            found.units,
            found.plan_bytes,
            found.legs,
        ];
        assert_eq!(found, case.answer, "case {number}");
    }
}

#[test]
fn reverses_are_found() {
    let cases = find_cases();
    assert_eq!(cases.len(), 900);
    for (number, case) in cases.iter().enumerate() {
        let mut table = case.table.clone();
        let found = find(&case.book, &case.forward, case.phi, case.psi, &mut table);
        let expected = Found {
            code: case.code,
            place: case.place,
            count: case.count,
            commands: case.commands,
        };
        assert_eq!(found, expected, "case {number}");
        assert_eq!(table[..16], case.table_after, "table, case {number}");

        // The table is that of checking, untouched where it is short.
        let mut checked = case.table.clone();
        check(&case.book, &mut checked, &mut [8; 2176], &mut [9; 32]);
        assert_eq!(table, checked, "table, case {number}");
    }
}

#[test]
fn books_are_written() {
    let cases = write_cases();
    assert_eq!(cases.len(), 500);
    for (number, case) in cases.iter().enumerate() {
        let mut out = case.out.clone();
        let found = write(
            case.n,
            case.m,
            case.items,
            &case.table,
            &case.slots,
            &case.weights,
            &mut out,
        );
        let found = (found.code, found.place, found.length);
        assert_eq!(found, (case.code, case.place, case.length), "case {number}");
        let (start, rest) = out.split_at(case.out_after.len());
        assert_eq!(start, case.out_after, "case {number}");
        assert!(rest.iter().all(|&byte| byte == 90), "case {number}");
    }
}

#[test]
fn plans_are_assembled() {
    let cases = assemble_cases();
    assert_eq!(cases.len(), 900);
    for (number, case) in cases.iter().enumerate() {
        let before = || (vec![7; 2048], vec![8; 2176], vec![9; 32]);
        let (mut table, mut slots, mut weights) = before();
        let (mut plan, mut legs) = (vec![201; 256], vec![202; 96]);
        let found = assemble(
            &case.book,
            &case.run,
            &mut table,
            &mut slots,
            &mut weights,
            &mut plan,
            &mut legs,
        );
        let head = [found.code, found.place, found.commands, found.legs];
        assert_eq!(
            head,
            [case.code, case.place, case.commands, case.legs],
            "case {number}"
        );
        assert_eq!(found.sum, case.sum, "case {number}");
        assert_eq!(found.fewest, case.fewest, "case {number}");
        assert_eq!(case.plan.len() as u64, case.commands);
        assert_eq!(case.leg_list.len() as u64, case.legs);

        let mut expected_plan = case.plan.clone();
        expected_plan.resize(256, 201);
        assert_eq!(plan, expected_plan, "case {number}");
        let mut expected_legs = case.leg_list.concat();
        expected_legs.resize(96, 202);
        assert_eq!(legs, expected_legs, "case {number}");

        let (mut table_read, mut slots_read, mut weights_read) = before();
        read(
            &case.book,
            &mut table_read,
            &mut slots_read,
            &mut weights_read,
        );
        let after_reading = (table_read, slots_read, weights_read);
        assert_eq!((table, slots, weights), after_reading, "case {number}");
        let sum = (case.plan.iter()).map(|&c| u64::from(after_reading.2[usize::from(c)]));
        assert_eq!(sum.sum::<u64>(), case.sum, "case {number}");

        let mut structs = [Leg {
            item: 202,
            upper: 202,
            lower: 202,
        }; 32];
        let (mut table, mut slots, mut weights) = before();
        let mut plan = vec![201; 256];
        let again = assemble_legs(
            &case.book,
            &case.run,
            &mut table,
            &mut slots,
            &mut weights,
            &mut plan,
            &mut structs,
        );
        assert_eq!(again, found, "case {number}");
        assert_eq!(plan, expected_plan, "case {number}");
        assert_eq!((table, slots, weights), after_reading, "case {number}");
        let bytes: Vec<u8> = structs
            .iter()
            .flat_map(|l| [l.item, l.upper, l.lower])
            .collect();
        assert_eq!(bytes, expected_legs, "case {number}");
    }
}

#[test]
fn plans_are_assembled_with_a_scratch() {
    let cases = small_cases();
    assert_eq!(cases.len(), 700);
    for (number, case) in cases.iter().enumerate() {
        let answer = &case.assemble;
        let mut scratch = case.scratch.clone();
        let (mut plan, mut legs) = (case.plan.clone(), case.legs.clone());
        let found = assemble_small(
            &answer.book,
            &answer.run,
            &mut scratch,
            &mut plan,
            &mut legs,
        );
        let head = [found.code, found.place, found.commands, found.legs];
        assert_eq!(
            head,
            [answer.code, answer.place, answer.commands, answer.legs],
            "case {number}"
        );
        assert_eq!(found.sum, answer.sum, "case {number}");
        assert_eq!(found.fewest, answer.fewest, "case {number}");

        let mut expected_plan = answer.plan.clone();
        expected_plan.resize(case.plan.len(), 201);
        assert_eq!(plan, expected_plan, "case {number}");
        let mut expected_legs = answer.leg_list.concat();
        expected_legs.resize(case.legs.len(), 202);
        assert_eq!(legs, expected_legs, "case {number}");

        if answer.code == 1 {
            assert_eq!(scratch[..8], case.scratch_after, "case {number}");
            assert_eq!(scratch, case.scratch, "case {number}");
        } else {
            assert!(case.scratch_after.is_empty(), "case {number}");
            assert_eq!(scratch[64..], case.scratch[64..], "case {number}");
        }

        // The first form, where the scratch is long enough.
        let (mut plan_after, mut legs_after) = (case.plan.clone(), case.legs.clone());
        if case.scratch.len() >= 64 {
            let again = assemble(
                &answer.book,
                &answer.run,
                &mut [7; 2048],
                &mut [8; 2176],
                &mut [9; 32],
                &mut plan_after,
                &mut legs_after,
            );
            assert_eq!(found, again, "case {number}");
        }
        assert_eq!((plan, legs), (plan_after, legs_after), "case {number}");
    }
}

#[test]
fn plans_are_laid_out() {
    let cases = page_cases();
    assert_eq!(cases.len(), 700);
    for (number, case) in cases.iter().enumerate() {
        let (mut table, mut slots) = (case.table.clone(), case.slots.clone());
        let mut weights = case.weights.clone();
        let (mut plan, mut legs) = (case.plan.clone(), case.legs.clone());
        let mut paper = case.page.clone();
        let found = page(
            &case.book,
            &case.run,
            &mut table,
            &mut slots,
            &mut weights,
            &mut plan,
            &mut legs,
            &mut paper,
        );
        let a = found.assembly;
        let head = [a.code, a.place, a.commands, a.legs, a.sum, found.length];
        assert_eq!(head, case.head, "case {number}");
        assert_eq!(a.fewest, case.fewest, "case {number}");
        let (start, rest) = paper.split_at(case.page_after.len());
        assert_eq!(start, case.page_after, "page, case {number}");
        assert!(rest.iter().all(|&byte| byte == 90), "page, case {number}");

        // The rest is assembling's, where the page is long enough.
        let (mut table_after, mut slots_after) = (case.table.clone(), case.slots.clone());
        let mut weights_after = case.weights.clone();
        let (mut plan_after, mut legs_after) = (case.plan.clone(), case.legs.clone());
        if case.page.len() >= 1312 {
            let again = assemble(
                &case.book,
                &case.run,
                &mut table_after,
                &mut slots_after,
                &mut weights_after,
                &mut plan_after,
                &mut legs_after,
            );
            assert_eq!(a, again, "case {number}");
        }
        let after = (table, slots, weights, plan, legs);
        let expected = (
            table_after,
            slots_after,
            weights_after,
            plan_after,
            legs_after,
        );
        assert!(after == expected, "case {number}");
    }
}
