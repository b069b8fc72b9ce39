//! The safe types on the cases of a second program: each answer as a plan, a book or a fault.

use core::mem::{align_of, offset_of, size_of};

use rollback::calls::{
    self, Assembly, Checking, Forecasted, Found, Leg, Lookup, Paged, Reading, Writing, POINTS_LEN,
};
use rollback::{record_at, Book, Fault, Forecast, Item, Kind, Reverse, WriteFault, NONE};
use rollback_cases::{
    assemble_cases, book_cases, find_cases, forecast_cases, largest_book, page_cases, q5_run,
    q_book, small_cases,
};

fn code_and_place(fault: &Fault) -> [u64; 2] {
    [
        fault.code(),
        fault.record().map_or(0, |record| record.place as u64),
    ]
}

#[test]
fn plans() {
    for (number, case) in assemble_cases().iter().enumerate() {
        let (head, fewest) = match rollback::plan(&case.book, &case.run) {
            Ok(plan) => {
                assert_eq!(plan.commands(), case.plan, "case {number}");
                let legs = plan.legs().iter();
                let legs: Vec<_> = legs.map(|leg| [leg.item, leg.upper, leg.lower]).collect();
                assert_eq!(legs, case.leg_list, "case {number}");
                let book = Book::check(&case.book).unwrap();
                let items: Vec<Item> = book.items().collect();
                for (leg, commands) in plan.steps() {
                    assert_eq!(
                        commands,
                        items[usize::from(leg.item)].reverse,
                        "case {number}"
                    );
                }
                assert_eq!(plan.to_string().lines().count(), 1 + legs.len());
                assert_eq!(plan.sum(), case.sum, "case {number}");
                let weight = |&command: &u8| u64::from(book.weights()[usize::from(command)]);
                let sum: u64 = plan.commands().iter().map(weight).sum();
                assert_eq!(plan.sum(), sum, "case {number}");
                assert_eq!(book.plan(&case.run).as_ref(), Ok(&plan), "case {number}");
                ([0, 0], *plan.fewest())
            }
            Err(fault @ Fault::NoChain { fewest }) => (code_and_place(&fault), fewest),
            Err(fault) => (code_and_place(&fault), case.fewest),
        };
        assert_eq!(head, [case.code, case.place], "case {number}");
        assert_eq!(fewest, case.fewest, "case {number}");
    }
}

#[test]
fn pages() {
    for (number, case) in page_cases().iter().enumerate() {
        // Here buffers are never short.
        if case.head[0] == 1 {
            continue;
        }
        let length = case.head[5] as usize;
        match rollback::plan(&case.book, &case.run) {
            Ok(plan) => {
                assert_eq!(case.head[0], 0, "case {number}");
                let expected = &case.page_after[..length];
                assert_eq!(plan.page().as_bytes(), expected, "case {number}");
                let commands = plan
                    .page()
                    .lines()
                    .flat_map(|line| line.split_whitespace().skip(5))
                    .map(|command| command.parse().unwrap());
                assert_eq!(commands.collect::<Vec<u8>>(), plan.commands());
            }
            Err(fault) => assert_eq!(code_and_place(&fault), case.head[..2], "case {number}"),
        }
    }
}

#[test]
fn plans_with_a_scratch() {
    let cases = small_cases();
    let small = cases.iter().map(|case| &case.assemble);
    // Here buffers are never short.
    let small = small.filter(|case| case.code != 1);
    let mut scratch = [7; calls::SCRATCH_LEN];
    for (number, case) in small.chain(&assemble_cases()).enumerate() {
        let (book, run) = (&case.book, &case.run);
        let (mut plan, mut legs) = ([8; calls::PLAN_LEN], [9; calls::LEGS_LEN]);
        let found = rollback::plan_small(book, run, &mut scratch, &mut plan, &mut legs);
        match (found, rollback::plan(book, run)) {
            (Ok(small), Ok(plan)) => {
                assert_eq!(case.code, 0, "case {number}");
                assert_eq!(small.commands(), case.plan, "case {number}");
                let leg_list = small.legs().map(|leg| [leg.item, leg.upper, leg.lower]);
                assert!(leg_list.eq(case.leg_list.iter().copied()), "case {number}");
                assert_eq!(small.sum(), case.sum, "case {number}");
                assert_eq!(small.fewest(), &case.fewest, "case {number}");
                assert!(small.steps().eq(plan.steps()), "case {number}");
                assert_eq!(small.to_string(), plan.to_string(), "case {number}");
            }
            (Err(fault), Err(same)) => {
                assert_eq!(fault, same, "case {number}");
                let head = [case.code, case.place];
                assert_eq!(code_and_place(&fault), head, "case {number}");
                assert_eq!(plan, [8; calls::PLAN_LEN], "case {number}");
                assert_eq!(legs, [9; calls::LEGS_LEN], "case {number}");
            }
            (small, plan) => panic!("case {number}: {small:?}, {plan:?}"),
        }
    }
}

#[test]
fn books() {
    for (number, case) in book_cases().iter().enumerate() {
        // Here buffers are never short.
        if case.reading[0] == 1 {
            continue;
        }
        let answer = |book: Result<&Book, &Fault>| match book {
            Ok(book) => {
                [0, 0, book.states(), book.commands(), book.items().len()].map(|n| n as u64)
            }
            Err(fault) => {
                let [code, place] = code_and_place(fault);
                [code, place, 0, 0, 0]
            }
        };
        let read = Book::read(&case.book);
        assert_eq!(answer(read.as_ref()), case.reading, "book {number}");
        let checked = Book::check(&case.book);
        assert_eq!(
            answer(checked.as_deref()),
            case.checking[..5],
            "book {number}"
        );
        if let Ok(book) = checked {
            assert_eq!(book.units(), case.checking[5], "book {number}");
        }
        if let Ok(book) = read {
            assert_eq!(book.bytes(), case.book, "book {number}");
            let (n, m) = (book.states(), book.commands());
            let outcomes: Vec<u64> = (0..n * m)
                .map(|entry| book.outcomes(entry / m, entry % m).unwrap())
                .collect();
            let items: Vec<Item> = book.items().collect();
            assert_eq!(book.weights(), &case.weights_after[..m], "book {number}");
            let written = rollback::write(n, m, &outcomes, &items, book.weights());
            assert_eq!(written, Ok(case.book.clone()), "book {number}");
        }
    }
}

#[test]
fn forecasts() {
    for (number, case) in forecast_cases().iter().enumerate() {
        let commands = usize::try_from(case.i).unwrap_or(usize::MAX);
        let answer = match rollback::forecast(&case.book, commands) {
            Ok(f) => [0, 0, f.units, f.plan_bytes as u64, f.legs as u64],
            Err(fault) => {
                let [code, place] = code_and_place(&fault);
                [code, place, 0, 0, 0]
            }
        };
        assert_eq!(answer, case.answer, "case {number}");
    }
}

#[test]
fn reverses_of_the_cases() {
    for (number, case) in find_cases().iter().enumerate() {
        // Here the table is never short.
        if case.code == 1 {
            continue;
        }
        let found = rollback::find(&case.book, &case.forward, case.phi, case.psi);
        match &found {
            Ok(found) => {
                assert_eq!(case.code, 0, "case {number}");
                let expected = &case.commands[..case.count as usize];
                assert_eq!(found.commands(), expected, "case {number}");
                let item = Item {
                    forward: &case.forward,
                    reverse: expected,
                    phi: case.phi,
                    psi: case.psi,
                };
                assert_eq!(found.item(), item, "case {number}");
            }
            Err(fault) => {
                assert_eq!(
                    code_and_place(fault),
                    [case.code, case.place],
                    "case {number}"
                );
            }
        }
        let mut table = [0; calls::TABLE_LEN];
        let (book, forward) = (&case.book, &case.forward);
        let lent = rollback::find_in(book, forward, case.phi, case.psi, &mut table);
        assert_eq!(lent, found, "case {number}");
        if let Ok(book) = Book::check(&case.book) {
            assert_eq!(
                book.find(forward, case.phi, case.psi),
                found,
                "case {number}"
            );
        }
    }
}

/// Q's items have 3 × 3, 1 × 2, 3 × 3, 1 × 1 and 3 × 2 units.
#[test]
fn units() {
    let forecast = |units, plan_bytes, legs| Forecast {
        units,
        plan_bytes,
        legs,
    };
    let q = q_book();
    assert_eq!(rollback::forecast(&q, 2), Ok(forecast(27, 4, 2)));
    assert_eq!(rollback::forecast(&q, 0), Ok(forecast(27, 0, 0)));
    assert_eq!(Book::check(&q).unwrap().units(), 27);
    let largest = largest_book();
    assert_eq!(largest.len(), calls::BOOK_LEN);
    let most = rollback::forecast(&largest, 32);
    assert_eq!(most, Ok(forecast(65_536, calls::PLAN_LEN, 32)));
    assert_eq!(Book::check(&largest).unwrap().units(), 65_536);

    let made = |book: &[u8]| {
        let (mut table, mut slots) = ([0; calls::TABLE_LEN], [0; calls::SLOTS_LEN]);
        let r = calls::check(book, &mut table, &mut slots, &mut [0; calls::WEIGHTS_LEN]);
        [r.code, r.place, r.units]
    };
    // Item 1 with psi {0, 1}: 8, by the last command of the start 1.
    let mut book = q.clone();
    book[145] = 3;
    assert_eq!(made(&book), [8, 129, 9 + 2 + 2]);
    // Item 4 with psi {1, 2}: 12, after its reverse command on no state, for each of the two starts.
    let mut book = q;
    book[217] = 6;
    assert_eq!(made(&book), [12, 201, 9 + 2 + 9 + 1 + 4]);
    assert_eq!(made(&book[..224]), [2, 201, 0]);
}

/// What was found, or the code.
fn said(found: &Result<Reverse, Fault>) -> String {
    match found {
        Ok(found) => found.to_string(),
        Err(fault) => format!("code {}", fault.code()),
    }
}

/// The ring: from each of 8 states command 0 leads to the next, command 1 to the next but one, so that
/// three commands lead on by 3 to 6 states.
#[test]
fn reverses_in_the_ring() {
    let outcomes: Vec<u64> = (0..16).map(|e| 1 << ((e / 2 + 1 + e % 2) % 8)).collect();
    let item = Item {
        forward: &[1, 1, 1, 1],
        reverse: &[],
        phi: 255,
        psi: 255,
    };
    let ring = rollback::write(8, 2, &outcomes, &[], &[]).unwrap();
    assert_eq!(ring.len(), 230);
    // Weights don't count, and 64 items are no obstacle.
    let weighed = rollback::write(8, 2, &outcomes, &[], &[1, 1000]).unwrap();
    let full = rollback::write(8, 2, &outcomes, &[item; 64], &[]).unwrap();
    let answers: [(&[u8], &str); 6] = [
        (&[0], "code 15"),
        (&[1], "1 1 1"),
        (&[0, 1], "0 1 1"),
        (&[0, 1, 1], "0 1"),
        (&[1, 1, 1], "1"),
        (&[1, 1, 1, 1], "nothing"),
    ];
    for (bytes, (forward, answer)) in [&ring, &weighed, &full]
        .into_iter()
        .flat_map(|bytes| answers.map(|answer| (bytes, answer)))
    {
        let found = rollback::find(bytes, forward, 255, 255);
        assert_eq!(said(&found), answer);
        assert_eq!(Book::check(bytes).unwrap().find(forward, 255, 255), found);
        let mut table = [7; calls::TABLE_LEN];
        let lent = rollback::find_in(bytes, forward, 255, 255, &mut table);
        assert_eq!(lent, found);
        assert_eq!(table[..16], outcomes);
        assert_eq!(table[16..], [7; calls::TABLE_LEN - 16]);
        if let Ok(found) = found {
            let item = found.item();
            assert_eq!((item.forward, item.phi, item.psi), (forward, 255, 255));
            assert_eq!(item.reverse, found.commands());
            let with = rollback::write(8, 2, &outcomes, &[item], &[]).unwrap();
            assert!(Book::check(&with).is_ok());
        }
    }
}

/// Q's own items have the reverse that is found, but item 0, whose 1 0 is longer than 0.
#[test]
fn reverses_in_q() {
    let q = q_book();
    let book = Book::check(&q).unwrap();
    for (number, item) in book.items().enumerate() {
        let found = book.find(item.forward, item.phi, item.psi).unwrap();
        let expected = if number == 0 { &[0] } else { item.reverse };
        assert_eq!(found.commands(), expected, "item {number}");
    }
    let find = |forward, phi, psi| said(&rollback::find(&q, forward, phi, psi));
    assert_eq!(find(&[2, 0, 0, 0, 0, 0, 0, 0], 7, 7), "nothing");
    assert_eq!(find(&[1], 7, 3), "code 15");
    assert_eq!(find(&[2, 2], 7, 7), "code 15");
    assert_eq!(find(&[2], 0, 7), "code 15");
    assert_eq!(find(&[2], 7, 0), "code 15");
    assert_eq!(find(&[2], 8, 7), "code 14");
    assert_eq!(find(&[2], 7, 8), "code 14");
    assert_eq!(find(&[3], 7, 7), "code 14");
    assert_eq!(find(&[], 7, 7), "code 14");
    assert_eq!(find(&[0; 9], 7, 7), "code 14");

    // The book's own faults come first. With the item of Q3, 2 / 2, the table is read.
    let mut q3 = q.clone();
    q3.extend([20, 0, 3, 0, 1, 1, 2, 2]);
    q3.extend([7, 0, 0, 0, 0, 0, 0, 0].repeat(2));
    let read = [1, 2, 6, 1, 2, 0, 1, 2, 0, 9];
    for (bytes, head, after) in [(&q3[..], [8, 225], read), (&q[..224], [2, 201], [9; 10])] {
        let mut table = [9; calls::TABLE_LEN];
        let fault = rollback::find_in(bytes, &[3], 8, 7, &mut table).unwrap_err();
        assert_eq!(code_and_place(&fault), head);
        assert_eq!(table[..10], after);
    }
}

#[test]
fn what_can_not_be_written() {
    // The longest book that is written.
    assert_eq!(calls::OUT_LEN, 6 + 68 + 2048 * 14 + 64 * 38);
    let item = |forward, reverse| Item {
        forward,
        reverse,
        phi: 0,
        psi: 0,
    };
    let (one, nine, many) = ([0], [0; 9], [0; 257]);
    let written = |items: &[Item]| rollback::write(1, 1, &[], items, &[]);
    assert_eq!(
        written(&[item(&one, &one); 65]),
        Err(WriteFault::TooManyItems)
    );
    for long in [&nine[..], &many] {
        let fault = Err(WriteFault::Item { number: 1 });
        assert_eq!(written(&[item(&one, &one), item(long, &one)]), fault);
        assert_eq!(written(&[item(&one, &one), item(&one, long)]), fault);
    }
    // Code 5 at place 0 has four meanings.
    let fault = |n, m, outcomes: &[u64], items: &[Item], weights: &[u16]| {
        rollback::write(n, m, outcomes, items, weights)
            .unwrap_err()
            .to_string()
    };
    let device = "a device has 1 to 64 states and 1 to 32 commands (code 5)";
    assert_eq!(fault(0, 1, &[], &[], &[0]), device);
    assert_eq!(fault(64, 33, &[], &[], &[]), device);
    let wrong = [item(&nine, &one)];
    let outcomes = [0, 0, 0, 0, 0, 4];
    for (weights, command) in [(&[0][..], 0), (&[1, 1001, 0], 1), (&[1000, 1, 65_535], 2)] {
        assert_eq!(
            fault(2, 3, &outcomes, &wrong, weights),
            format!("command {command}: its weight is outside 1 to 1,000 (code 5)")
        );
    }
    // A weight from m on is ignored, and says nothing of an entry's fault.
    let outcome = "state 1, command 2: an outcome is a state that the device lacks (code 5)";
    for weights in [&[][..], &[1, 1, 1, 0, 0, 0]] {
        assert_eq!(fault(2, 3, &outcomes, &wrong, weights), outcome);
    }
    assert_eq!(
        fault(64, 1, &[], &wrong, &[]),
        "item 0: a field is outside its range (code 5)"
    );
}

/// All 1 is a book without the record; what lies past m is ignored.
#[test]
fn weights_are_written_and_read() {
    let bare = [2, 0, 1, 0, 1, 2];
    for (given, read, record) in [
        (&[][..], [1, 1], &[][..]),
        (&[1, 1, 9, 0], [1, 1], &[]),
        (&[3], [3, 1], &[4, 0, 5, 0, 3, 0, 1, 0]),
        (&[1, 1000, 0], [1, 1000], &[4, 0, 5, 0, 1, 0, 232, 3]),
        (&[7; 40], [7, 7], &[4, 0, 5, 0, 7, 0, 7, 0]),
    ] {
        let bytes = rollback::write(1, 2, &[], &[], given).unwrap();
        assert_eq!(bytes, [&bare, record].concat());
        assert_eq!(Book::read(&bytes).unwrap().weights(), read);
    }
}

/// Back from on to off by one command, or by three that are cheaper.
#[test]
fn the_least_sum() {
    let item = |reverse| Item {
        forward: &[1],
        reverse,
        phi: 3,
        psi: 1,
    };
    let items = [item(&[0]), item(&[2, 2, 2])];
    let run = rollback::run(&[1], &[1, 3]).unwrap();
    let planned = |weights: &[u16]| {
        let book = rollback::write(2, 3, &[1, 2, 2, 1, 2, 1], &items, weights).unwrap();
        let plan = rollback::plan(&book, &run).unwrap();
        assert_eq!(u64::from(plan.fewest()[1]), plan.sum());
        (plan.commands().to_vec(), plan.sum())
    };
    assert_eq!(planned(&[]), (vec![0], 1));
    assert_eq!(planned(&[10, 1, 3]), (vec![2, 2, 2], 9));
    assert_eq!(planned(&[9, 1, 3]), (vec![0], 9));
}

/// What is built is a run of the largest device, and nothing else is built.
#[test]
fn runs_that_are_none() {
    for (commands, sightings) in [
        (0, 0),
        (0, 2),
        (2, 2),
        (32, 32),
        (32, 34),
        (33, 34),
        (256, 257),
        (287, 0),
        (288, 1),
        (0, 1 << 13),
        (1, 1 << 16),
    ] {
        let run = rollback::run(&vec![0; commands], &vec![1; sightings]);
        assert_eq!(run, Err(Fault::Run), "{commands}, {sightings}");
    }
    for command in [32, 255] {
        assert_eq!(rollback::run(&[0, command], &[1; 3]), Err(Fault::Run));
    }
    let book = rollback::write(64, 32, &[], &[], &[]).unwrap();
    for commands in 0..=32 {
        let run = rollback::run(&vec![31; commands], &vec![u64::MAX; commands + 1]).unwrap();
        // Nothing is wrong with the run, but this device can carry no command out.
        match rollback::plan(&book, &run) {
            Ok(plan) => assert_eq!((commands, plan.commands()), (0, &[][..])),
            Err(fault) => assert_eq!((commands > 0, fault), (true, Fault::NoHistory)),
        }
        assert_eq!(run.len(), 13 + 9 * commands);
    }
    assert_eq!(calls::RUN_LEN, 13 + 9 * 32);
    // A run, but not of this device.
    let book = rollback::write(1, 1, &[1], &[], &[]).unwrap();
    for (commands, sightings) in [(&[1][..], &[1, 1][..]), (&[], &[2])] {
        let run = rollback::run(commands, sightings).unwrap();
        assert_eq!(rollback::plan(&book, &run), Err(Fault::Run));
    }
}

/// Q's records by number and place, as docs/FORMAT.md lists them.
#[test]
fn records_have_names() {
    let book = q_book();
    let names = [0, 6, 20, 34, 48, 62, 76, 90, 104, 129, 153, 178, 201, 225]
        .map(|place| record_at(&book, place).to_string());
    assert_eq!(names[0], "device 0 (record at 0)");
    assert_eq!(names[7], "move 6 (record at 90)");
    assert_eq!(names[9], "item 1 (record at 129)");
    assert_eq!(names[12], "item 4 (record at 201)");
    assert_eq!(names[13], "record 13 (at 225)");
    assert_eq!(record_at(&book, usize::MAX).kind, Kind::Unknown);
    assert_eq!(record_at(&[], 0).to_string(), "record 0 (at 0)");
    let weights = [&book[..6], &[2, 0, 5, 0, 1, 0, 0, 0, 5, 0, 0, 0, 4, 0]].concat();
    let names = [6, 12, 16].map(|place| record_at(&weights, place).to_string());
    assert_eq!(names[0], "weights 0 (record at 6)");
    assert_eq!(names[1], "weights 1 (record at 12)");
    assert_eq!(names[2], "record 3 (at 16)");
}

#[test]
fn faults_have_words() {
    let mut book = q_book();
    // Q2 of the marked twelve: item 1 with psi 3.
    book[145] = 3;
    assert_eq!(
        rollback::plan(&book, &q5_run()).unwrap_err().to_string(),
        "item 1 (record at 129): the reverse commands can get stuck, or end elsewhere than in the start (code 8)"
    );
    // Command 2 can't be carried out in states 1 and 2: item 4 with psi 6.
    let mut book = q_book();
    book[217] = 6;
    assert_eq!(
        rollback::plan(&book, &q5_run()).unwrap_err().to_string(),
        "item 4 (record at 201): the item can never be used: its forward commands lead from no start in psi to an end in phi (code 12)"
    );
    // Q with weights that are all 1.
    let q = q_book();
    let book = [&q[..6], &[6, 0, 5, 0, 1, 0, 1, 0, 1, 0], &q[6..]].concat();
    assert_eq!(
        rollback::plan(&book, &q5_run()).unwrap_err().to_string(),
        "weights 0 (record at 6): every weight is 1, as without this record: leave it out (code 13)"
    );
    // Q9: 1; 7 7.
    assert_eq!(
        rollback::plan(&q_book(), &rollback::run(&[1], &[7, 7]).unwrap()).unwrap_err().to_string(),
        "no items of the book lead from the run's end back to its start (code 11); there are chains from points 0"
    );
    // A run that is cut off, and a forecast for too long a one.
    let words = "a run is one record, has at most 32 commands, and only commands and states of its device (code 9)";
    assert_eq!(
        rollback::plan(&q_book(), &q5_run()[..30])
            .unwrap_err()
            .to_string(),
        words
    );
    assert_eq!(
        rollback::forecast(&q_book(), 33).unwrap_err().to_string(),
        words
    );
    let sought = |forward| {
        rollback::find(&q_book(), forward, 7, 7)
            .unwrap_err()
            .to_string()
    };
    assert_eq!(
        sought(&[3]),
        "an item has 1 to 8 forward commands, and only commands and states of its device (code 14)"
    );
    assert_eq!(
        sought(&[1]),
        "no reverse of at most 3 commands makes an accepted item (code 15)"
    );
    assert_eq!(
        Fault::NoHistory.to_string(),
        "nothing that the device can do fits what was sent and heard (code 10)"
    );
    let unknown = Fault::new(99, 7, [NONE; POINTS_LEN], &[]);
    assert_eq!(unknown, Fault::Unknown { code: 99, place: 7 });
    assert_eq!(
        unknown.to_string(),
        "a code that this crate doesn't know (code 99)"
    );
}

#[test]
fn a_plan_reads_as_lines() {
    // Q8: 1 1; 1 7 7, by item 3, whose reverse is empty, and item 1.
    let q8 = rollback::run(&[1, 1], &[1, 7, 7]).unwrap();
    let plan = rollback::plan(&q_book(), &q8).unwrap();
    assert_eq!(
        plan.to_string(),
        "send 0\nitem 3 from point 2 to 1: nothing\nitem 1 from point 1 to 0: 0\n"
    );
    assert_eq!(
        plan.page(),
        "  1  2  1   3  0                        \n  2  1  0   1  1  0                     \n"
    );
    let q11 = rollback::run(&[], &[7]).unwrap();
    let nothing = rollback::plan(&q_book(), &q11).unwrap();
    assert_eq!(nothing.to_string(), "send nothing\n");
    assert_eq!(nothing.page(), "");
}

/// Sizes and offsets as c/header.c has them of the header's structs.
#[test]
fn results_are_laid_out_as_in_the_header() {
    assert_eq!(size_of::<Reading>(), 40);
    assert_eq!(size_of::<Checking>(), 48);
    assert_eq!(offset_of!(Checking, items), 32);
    assert_eq!(offset_of!(Checking, units), 40);
    assert_eq!(size_of::<Forecasted>(), 40);
    assert_eq!(offset_of!(Forecasted, units), 16);
    assert_eq!(offset_of!(Forecasted, plan_bytes), 24);
    assert_eq!(offset_of!(Forecasted, legs), 32);
    assert_eq!(size_of::<Found>(), 32);
    assert_eq!(offset_of!(Found, count), 16);
    assert_eq!(offset_of!(Found, commands), 24);
    assert_eq!(size_of::<Assembly>(), 176);
    assert_eq!(offset_of!(Assembly, sum), 32);
    assert_eq!(offset_of!(Assembly, fewest), 40);
    assert_eq!(size_of::<Paged>(), 184);
    assert_eq!(offset_of!(Paged, assembly), 0);
    assert_eq!(offset_of!(Paged, length), 176);
    assert_eq!(size_of::<Writing>(), 24);
    assert_eq!(size_of::<Lookup>(), 24);
    assert_eq!((size_of::<Leg>(), align_of::<Leg>()), (3, 1));
    assert_eq!(
        calls::PAGE_LEN,
        calls::LEG_STRUCTS_LEN * calls::PAGE_LINE_LEN
    );
}

/// Without room for the text there is none.
#[test]
fn a_page_without_its_text() {
    let mut page = [b' '; calls::PAGE_LEN];
    let paged = |length| Paged {
        assembly: Assembly {
            code: 0,
            place: 0,
            commands: 0,
            legs: 0,
            sum: 0,
            fewest: [NONE; POINTS_LEN],
        },
        length,
    };
    assert_eq!(paged(2).text(&page), Some("  "));
    assert_eq!(paged(0).text(&page), Some(""));
    for length in [calls::PAGE_LEN as u64 + 1, u64::MAX] {
        assert_eq!(paged(length).text(&page), None);
    }
    page[1] = 0xFF;
    assert_eq!(paged(2).text(&page), None);
}
