//! The marked twelve cases on the small device Q, items that can never be used,
//! plans on paper, weights, units and forecasts, plans with a scratch, reverses
//! that are found, and facts of the two devices with a constant table.

use super::*;

type Item<'a> = (&'a [u8], &'a [u8], u64, u64);

const Q: [Item; 5] = [
    (&[2], &[1, 0], 7, 7),
    (&[1], &[0], 7, 1),
    (&[2, 1], &[0], 7, 7),
    (&[1], &[], 7, 2),
    (&[2], &[0], 7, 7),
];

fn book(items: &[Item]) -> Vec<u8> {
    let mut bytes = vec![2, 0, 1, 0, 3, 3];
    for (state, command, mask) in [
        (0, 0, 1),
        (0, 1, 2),
        (0, 2, 6),
        (1, 0, 1),
        (1, 1, 2),
        (2, 0, 1),
        (2, 1, 2u64),
    ] {
        bytes.extend([10, 0, 2, 0, state, command]);
        bytes.extend(mask.to_le_bytes());
    }
    bytes.extend(items.iter().flat_map(item));
    bytes
}

fn item((forward, reverse, phi, psi): &Item) -> Vec<u8> {
    let (k, r) = (forward.len() as u8, reverse.len() as u8);
    let mut bytes = vec![18 + k + r, 0, 3, 0, k, r];
    bytes.extend(*forward);
    bytes.extend(*reverse);
    bytes.extend(phi.to_le_bytes());
    bytes.extend(psi.to_le_bytes());
    bytes
}

fn run(commands: &[u8], sightings: &[u64]) -> Vec<u8> {
    let i = commands.len() as u8;
    let mut bytes = (9 + 9 * u16::from(i)).to_le_bytes().to_vec();
    bytes.extend([4, 0, i]);
    bytes.extend(commands);
    for sighting in sightings {
        bytes.extend(sighting.to_le_bytes());
    }
    bytes
}

fn checked(items: &[Item]) -> Checking {
    checked_of(&book(items))
}

/// Assembling with a scratch and finding a reverse must turn the same books
/// down.
fn checked_of(book: &[u8]) -> Checking {
    let found = check(book, &mut [0; 2048], &mut [0; 2176], &mut [0; 32]);
    let expected = match found.code {
        // There is no run.
        0 => (9, 0),
        code => (code, found.place),
    };
    let small = assemble_small(book, &[], &mut [0; 64], &mut [0; 256], &mut [0; 96]);
    assert_eq!((small.code, small.place), expected);
    let expected = match found.code {
        // There are no forward commands.
        0 => (14, 0),
        code => (code, found.place),
    };
    let reverse = find(book, &[], 0, 0, &mut [0; 2048]);
    assert_eq!((reverse.code, reverse.place), expected);
    found
}

/// On Q: code, plan and legs.
fn assembled(commands: &[u8], sightings: &[u64]) -> (Assembly, Vec<u8>, Vec<[u8; 3]>) {
    assembled_of(&book(&Q), &run(commands, sightings))
}

/// Code, plan and legs; both forms of the legs must agree, and the form with a
/// scratch, what lies past the counts must stay, and the sum must be that of the
/// plan's commands.
fn assembled_of(book: &[u8], run: &[u8]) -> (Assembly, Vec<u8>, Vec<[u8; 3]>) {
    let (mut table, mut slots, mut weights) = ([0; 2048], [0; 2176], [0; 32]);
    let (mut plan, mut legs) = ([77; 256], [78; 96]);
    let result = assemble(
        book,
        run,
        &mut table,
        &mut slots,
        &mut weights,
        &mut plan,
        &mut legs,
    );
    let (commands, count) = (result.commands as usize, result.legs as usize);
    assert!(plan[commands..].iter().all(|&b| b == 77));
    assert!(legs[3 * count..].iter().all(|&b| b == 78));
    let sent = plan[..commands].iter();
    let sum: u64 = sent.map(|&c| u64::from(weights[usize::from(c)])).sum();
    assert_eq!(result.sum, sum);

    let mut structs = [Leg {
        item: 78,
        upper: 78,
        lower: 78,
    }; 32];
    let mut again = [77; 256];
    let second = assemble_legs(
        book,
        run,
        &mut table,
        &mut slots,
        &mut weights,
        &mut again,
        &mut structs,
    );
    assert_eq!((result, plan), (second, again));
    for (leg, bytes) in structs.iter().zip(legs.chunks(3)) {
        assert_eq!([leg.item, leg.upper, leg.lower], bytes);
    }

    let (mut scratch, mut again, mut bytes) = ([79; 69], [77; 256], [78; 96]);
    let third = assemble_small(book, run, &mut scratch, &mut again, &mut bytes);
    assert_eq!((result, plan, legs), (third, again, bytes));
    assert_eq!(scratch[64..], [79; 5]);
    let legs = legs[..3 * count]
        .chunks(3)
        .map(|leg| leg.try_into().unwrap())
        .collect();
    (result, plan[..commands].to_vec(), legs)
}

/// No chain from a point.
const NONE: u32 = 4_294_967_295;

fn fewest(first: &[u32]) -> [u32; 33] {
    let mut all = [NONE; 33];
    all[..first.len()].copy_from_slice(first);
    all
}

#[test]
fn the_book_of_q() {
    assert_eq!(book(&Q).len(), 225);
}

#[test]
fn q1_all_five_are_accepted() {
    let good = Checking {
        code: 0,
        place: 0,
        n: 3,
        m: 3,
        items: 5,
        units: 9 + 2 + 9 + 1 + 6,
    };
    assert_eq!(checked(&Q), good);
}

fn refused(code: u64, place: u64, units: u64) -> Checking {
    Checking {
        code,
        place,
        n: 0,
        m: 0,
        items: 0,
        units,
    }
}

/// Q2, Q3 and Q4 of the marked twelve.
const PSI_3: Item = (&[1], &[0], 7, 3);
const STUCK: Item = (&[2], &[2], 7, 7);
const NO_TRAJECTORY: Item = (&[2, 2], &[], 7, 7);

#[test]
fn q2_item_1_with_psi_3_is_not() {
    assert_eq!(checked(&[PSI_3]), refused(8, 104, 4));
    assert_eq!(checked(&[Q[0], PSI_3]), refused(8, 104 + 25, 9 + 4));
}

#[test]
fn q3_stuck_is_not() {
    assert_eq!(checked(&[STUCK]), refused(8, 104, 2));
}

#[test]
fn q4_no_trajectory_is_not_effective() {
    assert_eq!(checked(&[NO_TRAJECTORY]), refused(12, 104, 6));
    assert_eq!(
        checked(&[Q[0], NO_TRAJECTORY]),
        refused(12, 104 + 25, 9 + 6)
    );
}

#[test]
fn one_start_and_one_end_are_enough() {
    // Command 2 leads from state 0 alone, to 1 or 2.
    for (phi, psi) in [(4, 1), (4, 7), (5, 7), (2, 3)] {
        assert_eq!(checked(&[(&[2], &[0], phi, psi)]).code, 0);
    }
    for (phi, psi, units) in [
        (1, 1, 2),
        (1, 7, 6),
        (4, 6, 4),
        (7, 6, 4),
        (7, 0, 0),
        (0, 7, 6),
        (0, 0, 0),
    ] {
        let found = checked(&[(&[2], &[0], phi, psi)]);
        assert_eq!(found, refused(12, 104, units));
    }
}

#[test]
fn without_an_end_no_reverse_is_wrong() {
    // With an end, these reverse commands are stuck and end elsewhere.
    for reverse in [[2], [1]] {
        assert_eq!(checked(&[(&[2], &reverse, 7, 1)]).code, 8);
        assert_eq!(checked(&[(&[2], &reverse, 1, 1)]).code, 12);
    }
}

#[test]
fn the_first_wrong_item_decides() {
    assert_eq!(checked(&[NO_TRAJECTORY, STUCK]), refused(12, 104, 6));
    assert_eq!(checked(&[STUCK, NO_TRAJECTORY]), refused(8, 104, 2));
    assert_eq!(
        checked(&[Q[3], NO_TRAJECTORY, PSI_3]),
        refused(12, 104 + 23, 1 + 6)
    );
    assert_eq!(
        checked(&[Q[3], PSI_3, NO_TRAJECTORY]),
        refused(8, 104 + 23, 1 + 4)
    );
}

#[test]
fn a_wrong_item_leaves_the_book_read() {
    for (item, code) in [(STUCK, 8), (NO_TRAJECTORY, 12)] {
        for weights in [&[][..], &[1, 1000, 2]] {
            let book = weighted(&book(&[Q[0], item, Q[1]]), weights);
            let (mut lent, mut expected) = (Lent::new(STATED), Lent::new(STATED));
            assert_eq!(expected.read(&book).code, 0);
            let refused = lent.check(&book);
            // Both items after the first have 24 bytes.
            let place = book.len() as u64 - 48;
            assert_eq!((refused.code, refused.place), (code, place));
            assert_eq!(lent, expected);
        }
    }
}

/// No run, no history, no chain, a plan: the item goes before them.
#[test]
fn a_wrong_item_goes_before_the_run() {
    let runs = [
        (vec![], 9),
        (run(&[2, 2], &[7, 7, 7]), 10),
        (run(&[1], &[7, 7]), 11),
        (run(&[2, 1], &[7, 7, 7]), 0),
    ];
    for (run, alone) in &runs {
        assert_eq!(assembled_of(&book(&Q), run).0.code, *alone);
        for (item, code) in [(STUCK, 8), (NO_TRAJECTORY, 12)] {
            let items = [Q.to_vec(), vec![item]].concat();
            let (result, ..) = assembled_of(&book(&items), run);
            assert_eq!((result.code, result.place), (code, 225));
            assert_eq!((result.commands, result.legs, result.sum), (0, 0, 0));
            assert_eq!(result.fewest, fewest(&[]));
        }
    }
}

#[test]
fn q5() {
    let (result, plan, legs) = assembled(&[2, 1], &[7, 7, 7]);
    assert_eq!((result.code, result.place), (0, 0));
    assert_eq!((result.commands, result.legs, result.sum), (1, 1, 1));
    assert_eq!((plan, legs), (vec![0], vec![[2, 2, 0]]));
    assert_eq!(result.fewest, fewest(&[0, 1, 1]));
}

#[test]
fn q6_the_lower_list_wins() {
    let (result, plan, legs) = assembled(&[2, 1], &[7, 2, 7]);
    assert_eq!((result.code, plan, legs), (0, vec![0], vec![[2, 2, 0]]));
    assert_eq!(result.fewest, fewest(&[0, 1, 1]));
}

#[test]
fn q7() {
    let (result, plan, legs) = assembled(&[2], &[7, 7]);
    assert_eq!((result.code, plan, legs), (0, vec![0], vec![[4, 1, 0]]));
}

#[test]
fn q8() {
    let (result, plan, legs) = assembled(&[1, 1], &[1, 7, 7]);
    assert_eq!(
        (result.code, plan, legs),
        (0, vec![0], vec![[3, 2, 1], [1, 1, 0]])
    );
}

#[test]
fn q9_no_chain() {
    let (result, plan, legs) = assembled(&[1], &[7, 7]);
    assert_eq!((result.code, plan, legs), (11, vec![], vec![]));
    assert_eq!(result.fewest, fewest(&[0]));
}

#[test]
fn q10_no_history() {
    let (result, ..) = assembled(&[2, 2], &[7, 7, 7]);
    assert_eq!((result.code, result.fewest), (10, [NONE; 33]));
}

#[test]
fn q11_empty_plan() {
    let (result, plan, legs) = assembled(&[], &[7]);
    assert_eq!((result.code, plan, legs), (0, vec![], vec![]));
    assert_eq!(result.fewest, fewest(&[0]));
}

#[test]
fn q12_zero_sighting() {
    let (result, ..) = assembled(&[], &[0]);
    assert_eq!((result.code, result.fewest), (10, [NONE; 33]));
}

/// What the buffers hold, and what is lent.
#[derive(Clone, PartialEq, Eq, Debug)]
struct Lent {
    table: Vec<u64>,
    slots: Vec<u8>,
    weights: Vec<u16>,
    plan: Vec<u8>,
    legs: Vec<u8>,
    page: Vec<u8>,
}

impl Lent {
    fn new([table, slots, weights, plan, legs, page]: [usize; 6]) -> Lent {
        Lent {
            table: vec![75; table],
            slots: vec![76; slots],
            weights: vec![40_000; weights],
            plan: vec![77; plan],
            legs: vec![78; legs],
            page: vec![79; page],
        }
    }

    fn read(&mut self, book: &[u8]) -> Reading {
        read(book, &mut self.table, &mut self.slots, &mut self.weights)
    }

    fn check(&mut self, book: &[u8]) -> Checking {
        check(book, &mut self.table, &mut self.slots, &mut self.weights)
    }

    fn page(&mut self, book: &[u8], run: &[u8]) -> Paged {
        page(
            book,
            run,
            &mut self.table,
            &mut self.slots,
            &mut self.weights,
            &mut self.plan,
            &mut self.legs,
            &mut self.page,
        )
    }

    fn assemble(&mut self, book: &[u8], run: &[u8]) -> Assembly {
        let (table, slots, weights) = (&mut self.table, &mut self.slots, &mut self.weights);
        let (plan, legs) = (&mut self.plan, &mut self.legs);
        assemble(book, run, table, slots, weights, plan, legs)
    }
}

const STATED: [usize; 6] = [2048, 2176, 32, 256, 96, 1312];

/// The code and the page's text. All else must be assembling's, and what lies
/// past the length must stay.
fn paged_of(book: &[u8], run: &[u8]) -> (u64, String) {
    let longer = STATED.map(|length| length + 5);
    let (mut lent, mut expected) = (Lent::new(longer), Lent::new(longer));
    let found = lent.page(book, run);
    assert_eq!(found.assembly, expected.assemble(book, run));
    let length = found.length as usize;
    expected.page[..length].copy_from_slice(&lent.page[..length]);
    assert_eq!(lent, expected);
    assert_eq!(found.length, 41 * found.assembly.legs);

    // "The commands, taken down the page, are the plan."
    let text = String::from_utf8(lent.page[..length].to_vec()).unwrap();
    let commands = text
        .lines()
        .flat_map(|line| line.split_whitespace().skip(5))
        .map(|command| command.parse().unwrap());
    let plan = &lent.plan[..found.assembly.commands as usize];
    assert_eq!(commands.collect::<Vec<u8>>(), plan);
    (found.assembly.code, text)
}

/// On Q.
fn paged(commands: &[u8], sightings: &[u64]) -> (u64, String) {
    paged_of(&book(&Q), &run(commands, sightings))
}

#[test]
fn pages_of_q() {
    let two =
        "  1  2  1   3  0                        \n  2  1  0   1  1  0                     \n";
    assert_eq!(paged(&[1, 1], &[1, 7, 7]), (0, two.into()));
    let one = "  1  2  0   2  1  0                     \n";
    assert_eq!(paged(&[2, 1], &[7, 7, 7]), (0, one.into()));
    // No legs, no lines.
    assert_eq!(paged(&[], &[7]), (0, String::new()));
}

/// A device of one state where commands 0 and 31 stay; 64 items, of which the
/// last alone reverses command 31, by eight.
#[test]
fn a_full_page() {
    let mut bytes = vec![2, 0, 1, 0, 1, 32];
    for command in [0, 31] {
        bytes.extend([10, 0, 2, 0, 0, command, 1, 0, 0, 0, 0, 0, 0, 0]);
    }
    for number in 0..63 {
        let reverse = [0; 8];
        bytes.extend(item(&(&[0], &reverse[..number % 9], 1, 1)));
    }
    bytes.extend(item(&(&[31], &[31; 8], 1, 1)));
    let expected: String = (1..=32)
        .map(|leg| {
            let (upper, lower) = (33 - leg, 32 - leg);
            format!("{leg:3}{upper:3}{lower:3}  63  8 31 31 31 31 31 31 31 31\n")
        })
        .collect();
    assert_eq!(expected.len(), 1312);
    assert_eq!(
        expected[..41],
        *"  1 32 31  63  8 31 31 31 31 31 31 31 31\n"
    );
    let sent = run(&[31; 32], &[1; 33]);
    assert_eq!(paged_of(&bytes, &sent), (0, expected));
}

#[test]
fn a_refusal_leaves_the_page() {
    let wrong = |item| book(&[Q[0], item]);
    let q = book(&Q);
    let good = run(&[2, 1], &[7, 7, 7]);
    let cases = [
        (q[..103].to_vec(), good.clone(), 2),
        (wrong(STUCK), good.clone(), 8),
        (wrong(NO_TRAJECTORY), good, 12),
        (q.clone(), vec![], 9),
        (q.clone(), run(&[2, 2], &[7, 7, 7]), 10),
        (q, run(&[1], &[7, 7]), 11),
    ];
    for (book, run, code) in cases {
        assert_eq!(paged_of(&book, &run), (code, String::new()));
    }
}

/// A short buffer goes before the book's faults and leaves all untouched.
#[test]
fn a_short_page_is_refused_first() {
    let good = run(&[2, 1], &[7, 7, 7]);
    let short = Assembly {
        code: 1,
        place: 0,
        commands: 0,
        legs: 0,
        sum: 0,
        fewest: fewest(&[]),
    };
    let short_reading = Reading {
        code: 1,
        place: 0,
        n: 0,
        m: 0,
        items: 0,
    };
    for book in [book(&Q), book(&[STUCK]), vec![]] {
        for which in 0..6 {
            for length in [0, 1, STATED[which] - 1] {
                let mut lengths = STATED;
                lengths[which] = length;
                let mut lent = Lent::new(lengths);
                let found = lent.page(&book, &good);
                assert_eq!((found.assembly, found.length), (short, 0));
                if which < 3 {
                    assert_eq!(lent.read(&book), short_reading);
                    assert_eq!(lent.check(&book), refused(1, 0, 0));
                }
                if which < 5 {
                    assert_eq!(lent.assemble(&book, &good), short);
                }
                assert_eq!(lent, Lent::new(lengths));
            }
        }
    }
}

#[test]
fn q_is_written_as_read() {
    let plain = book(&Q);
    for weights in [&[][..], &[7, 1, 1000]] {
        let book = weighted(&plain, weights);
        let mut lent = Lent::new(STATED);
        assert_eq!(lent.read(&book).code, 0);
        assert!(lent.table[9..].iter().all(|&entry| entry == 75));
        assert!(lent.slots[170..].iter().all(|&byte| byte == 76));
        assert!(lent.weights[3..].iter().all(|&weight| weight == 40_000));
        assert_eq!(written(&lent, 5), (0, 0, book));
    }
}

// Weights

/// A book with a weights record after its device; for no weights, the same.
fn weighted(book: &[u8], weights: &[u16]) -> Vec<u8> {
    let record = match weights.len() {
        0 => vec![],
        _ => weights_record(weights),
    };
    [&book[..6], &record, &book[6..]].concat()
}

fn weights_record(weights: &[u16]) -> Vec<u8> {
    let mut bytes = vec![2 * weights.len() as u8, 0, 5, 0];
    bytes.extend(weights.iter().flat_map(|weight| weight.to_le_bytes()));
    bytes
}

/// What writing for three states and three commands answers, and the book.
/// Output past it must stay.
fn written(lent: &Lent, items: u64) -> (u64, u64, Vec<u8>) {
    let mut out = vec![9; 31_178];
    let found = write(
        3,
        3,
        items,
        &lent.table,
        &lent.slots,
        &lent.weights,
        &mut out,
    );
    let rest = out.split_off(found.length as usize);
    assert!(rest.iter().all(|&byte| byte == 9));
    (found.code, found.place, out)
}

/// A switch: command 0 turns it off, 1 on, 2 turns it over. Both items undo
/// "on": by one command, and by three.
const OFF: Item = (&[1], &[0], 3, 1);
const OVER: Item = (&[1], &[2, 2, 2], 3, 1);

fn switch(weights: &[u16], items: &[Item]) -> Vec<u8> {
    let mut bytes = vec![2, 0, 1, 0, 2, 3];
    for (at, mask) in (0..).zip([1, 2, 2, 1, 2, 1]) {
        bytes.extend([10, 0, 2, 0, at / 3, at % 3, mask, 0, 0, 0, 0, 0, 0, 0]);
    }
    bytes.extend(items.iter().flat_map(item));
    weighted(&bytes, weights)
}

#[test]
fn the_least_sum_wins_not_the_fewest_commands() {
    let sent = run(&[1], &[1, 3]);
    for items in [[OFF, OVER], [OVER, OFF]] {
        for (weights, sum, plan) in [
            (&[][..], 1, &[0][..]),
            (&[8, 1, 3], 8, &[0]),
            (&[10, 1, 3], 9, &[2, 2, 2]),
            (&[1000, 1, 333], 999, &[2, 2, 2]),
        ] {
            let (found, commands, _) = assembled_of(&switch(weights, &items), &sent);
            assert_eq!((found.code, commands), (0, plan.to_vec()));
            assert_eq!((found.commands, found.sum), (plan.len() as u64, sum));
            assert_eq!(found.fewest, fewest(&[0, sum as u32]));
        }
    }
}

#[test]
fn equal_sums_go_to_the_lower_list() {
    let sent = run(&[1], &[1, 3]);
    let answer = |items: &[Item]| {
        let (found, plan, legs) = assembled_of(&switch(&[9, 1, 3], items), &sent);
        assert_eq!((found.sum, found.fewest), (9, fewest(&[0, 9])));
        (plan, legs)
    };
    assert_eq!(answer(&[OFF, OVER]), (vec![0], vec![[0, 1, 0]]));
    assert_eq!(answer(&[OVER, OFF]), (vec![2, 2, 2], vec![[0, 1, 0]]));
}

/// A sum in two parts: the lower point's least sum counts, not its fewest commands.
#[test]
fn sums_over_two_legs() {
    let back = (&[0][..], &[1][..], 3, 2);
    let items = [OFF, OVER, back];
    let sent = run(&[1, 0, 1], &[1, 3, 3, 3]);
    let (found, plan, legs) = assembled_of(&switch(&[100, 40, 20], &items), &sent);
    assert_eq!(plan, [2, 2, 2, 1, 2, 2, 2]);
    assert_eq!(legs, [[1, 3, 2], [2, 2, 1], [1, 1, 0]]);
    assert_eq!((found.sum, found.fewest), (160, fewest(&[0, 60, 100, 160])));
}

/// 32 legs of eight commands, each of weight 1,000.
#[test]
fn the_largest_sum() {
    let mut bytes = vec![2, 0, 1, 0, 1, 1];
    bytes.extend([10, 0, 2, 0, 0, 0, 1, 0, 0, 0, 0, 0, 0, 0]);
    bytes.extend(item(&(&[0], &[0; 8], 1, 1)));
    let sent = run(&[0; 32], &[1; 33]);
    let (found, ..) = assembled_of(&weighted(&bytes, &[1000]), &sent);
    assert_eq!((found.code, found.commands, found.legs), (0, 256, 32));
    assert_eq!(found.sum, 256_000);
    assert_eq!(found.fewest, std::array::from_fn(|j| 8_000 * j as u32));
}

#[test]
fn weights_are_read() {
    for (weights, read) in [
        (&[][..], [1, 1, 1]),
        (&[1, 1, 2], [1, 1, 2]),
        (&[1000, 1, 999], [1000, 1, 999]),
        (&[256, 3, 515], [256, 3, 515]),
    ] {
        let book = weighted(&book(&Q), weights);
        let mut expected = Lent::new(STATED);
        assert_eq!(expected.read(&book).code, 0);
        assert_eq!(expected.weights[..3], read);
        let mut lent = Lent::new(STATED);
        assert_eq!(lent.check(&book).code, 0);
        assert_eq!(lent, expected);
        // 9, 10 and 11 leave the book read.
        for sent in [vec![], run(&[2, 2], &[7, 7, 7]), run(&[1], &[7, 7])] {
            let mut lent = Lent::new(STATED);
            assert!((9..=11).contains(&lent.assemble(&book, &sent).code));
            assert_eq!(lent, expected);
        }
    }
}

/// Reading leaves every buffer as it was. A forecast refuses the same, whatever
/// i is.
fn reading_refused(book: &[u8]) -> (u64, u64) {
    let (mut lent, sent) = (Lent::new(STATED), run(&[], &[7]));
    let found = lent.read(book);
    assert_eq!((found.n, found.m, found.items), (0, 0, 0));
    assert_eq!(lent.check(book), refused(found.code, found.place, 0));
    for i in [0, 32, 33] {
        assert_eq!(forecasted(book, i), [found.code, found.place, 0, 0, 0]);
    }
    let paged = lent.page(book, &sent).assembly;
    assert_eq!((paged.code, paged.place), (found.code, found.place));
    assert_eq!((paged.sum, paged.fewest), (0, fewest(&[])));
    let mut scratch = [79; 64];
    let small = assemble_small(book, &sent, &mut scratch, &mut lent.plan, &mut lent.legs);
    assert_eq!(small, paged);
    for forward in [&[0][..], &[]] {
        let reverse = find(book, forward, 1, 1, &mut lent.table);
        let head = (reverse.code, reverse.place);
        assert_eq!(head, (found.code, found.place));
        assert_eq!((reverse.count, reverse.commands), (0, [0; 3]));
    }
    assert_eq!(lent, Lent::new(STATED));
    (found.code, found.place)
}

#[test]
fn faults_of_a_weights_record() {
    let q = book(&Q);
    let refused = |weights: &[u16]| reading_refused(&weighted(&q, weights));
    // Its length is judged first, a weight out of range before all ones.
    for wrong in [&[2][..], &[1, 1], &[0, 1], &[1, 1, 1, 1], &[0; 32]] {
        assert_eq!(refused(wrong), (4, 6));
    }
    for wrong in [
        [0, 1, 1],
        [1, 1, 0],
        [1, 1001, 1],
        [65_535, 2, 2],
        [2, 2, 1 << 15],
    ] {
        assert_eq!(refused(&wrong), (5, 6));
    }
    assert_eq!(refused(&[1, 1, 1]), (13, 6));
    // An odd length, and no body.
    let record = |bytes: &[u8]| [&q[..6], bytes, &q[6..]].concat();
    assert_eq!(
        reading_refused(&record(&[5, 0, 5, 0, 2, 0, 2, 0, 2])),
        (4, 6)
    );
    assert_eq!(reading_refused(&record(&[0, 0, 5, 0])), (4, 6));
    // Kinds are 16-bit numbers.
    assert_eq!(
        reading_refused(&record(&[6, 0, 5, 1, 2, 0, 2, 0, 2, 0])),
        (3, 6)
    );
    // Cut off.
    let cut = [&q[..6], &weights_record(&[1, 1, 1])[..9]].concat();
    assert_eq!(reading_refused(&cut), (2, 6));
}

#[test]
fn weights_stand_straight_after_the_device() {
    let q = book(&Q);
    let good = weights_record(&[2, 3, 4]);
    for wrong in [
        good.clone(),
        weights_record(&[1, 1, 1]),
        weights_record(&[0]),
    ] {
        // First, after a move, after an item, last.
        for at in [0, 20, 129, 225] {
            let book = [&q[..at], &wrong, &q[at..]].concat();
            assert_eq!(reading_refused(&book), (3, at as u64));
        }
        // A second one.
        let book = [&q[..6], &good, &wrong, &q[6..]].concat();
        assert_eq!(reading_refused(&book), (3, 16));
    }
    // Alone after the device.
    let book = [&q[..6], &good].concat();
    assert_eq!(Lent::new(STATED).read(&book).code, 0);
}

/// A faulty device goes before it; it goes before every later record's fault.
#[test]
fn all_ones_in_their_order() {
    let q = book(&Q);
    let ones = weights_record(&[1, 1, 1]);
    let mut device = weighted(&q, &[1, 1, 1]);
    device[4] = 65;
    assert_eq!(reading_refused(&device), (5, 0));
    let mut kind = q[6..].to_vec();
    kind[2] = 9;
    let mut length = q[6..].to_vec();
    length[0] = 9;
    for rest in [&[1][..], &q[6..19], &kind, &length, &ones] {
        let book = [&q[..6], &ones, rest].concat();
        assert_eq!(reading_refused(&book), (13, 6));
    }
}

#[test]
fn places_after_a_weights_record() {
    let refused = |items: &[Item]| {
        let found = checked_of(&weighted(&book(items), &[2, 2, 2]));
        (found.code, found.place)
    };
    assert_eq!(refused(&[STUCK]), (8, 114));
    assert_eq!(refused(&[Q[0], NO_TRAJECTORY, STUCK]), (12, 139));
}

#[test]
fn writing_weights() {
    let q = book(&Q);
    let mut lent = Lent::new(STATED);
    assert_eq!(lent.read(&q).code, 0);
    let wrote = |weights: &[u16]| {
        let mut lent = lent.clone();
        lent.weights[..weights.len()].copy_from_slice(weights);
        written(&lent, 5)
    };
    // All 1: without the record. Those past m are ignored.
    assert_eq!(wrote(&[1, 1, 1]), (0, 0, q.clone()));
    assert_eq!(wrote(&[1, 1, 1, 2, 0]), (0, 0, q.clone()));
    for weights in [[1, 1, 2], [1000, 1, 1], [2, 2, 2], [258, 1, 3]] {
        assert_eq!(wrote(&weights), (0, 0, weighted(&q, &weights)));
    }
    for (weights, place) in [
        ([0, 1, 1], 0),
        ([1, 1001, 0], 1),
        ([1, 1, 0], 2),
        ([1000, 1, 65_535], 2),
    ] {
        assert_eq!(wrote(&weights), (5, place, vec![]));
    }
}

/// A wrong weight comes after 7 and before entries and slots.
#[test]
fn a_wrong_weight_in_its_order() {
    let mut lent = Lent::new(STATED);
    assert_eq!(lent.read(&book(&Q)).code, 0);
    lent.slots[0] = 9;
    assert_eq!(written(&lent, 5), (5, 0, vec![]));
    lent.table[1] = 8;
    assert_eq!(written(&lent, 5), (5, 1, vec![]));
    lent.weights[2] = 0;
    assert_eq!(written(&lent, 5), (5, 2, vec![]));
    assert_eq!(written(&lent, 65), (7, 0, vec![]));
    let mut out = vec![9; 31_178];
    let found = write(3, 33, 65, &lent.table, &lent.slots, &lent.weights, &mut out);
    assert_eq!((found.code, found.place, found.length), (5, 0, 0));
    lent.weights.truncate(31);
    assert_eq!(written(&lent, 5), (1, 0, vec![]));
}

/// 31,178 bytes; the output must hold as many.
#[test]
fn the_largest_book() {
    let (table, weights) = ([u64::MAX; 2048], [1000; 32]);
    let mut slot = [0; 34];
    slot[..2].copy_from_slice(&[8, 8]);
    let slots = [slot; 64].concat();
    let mut out = vec![9; 31_178];
    let found = write(64, 32, 64, &table, &slots, &weights, &mut out);
    assert_eq!((found.code, found.place, found.length), (0, 0, 31_178));
    assert_eq!(Lent::new(STATED).read(&out).items, 64);
    out.push(0);
    assert_eq!(reading_refused(&out), (2, 31_178));
    let found = write(64, 32, 64, &table, &slots, &weights, &mut out[..31_177]);
    assert_eq!((found.code, found.place, found.length), (1, 0, 0));
}

// Units and forecasts

/// A ladder of four rungs: command 0 goes up by one, 1 down by one, 2 from the
/// lowest to the second or the highest.
fn ladder(items: &[Item]) -> Vec<u8> {
    let mut bytes = vec![2, 0, 1, 0, 4, 3];
    for (state, command, mask) in [
        (0, 0, 2),
        (0, 2, 10),
        (1, 0, 4),
        (1, 1, 1),
        (2, 0, 8),
        (2, 1, 2),
        (3, 1, 4),
    ] {
        bytes.extend([10, 0, 2, 0, state, command, mask, 0, 0, 0, 0, 0, 0, 0]);
    }
    bytes.extend(items.iter().flat_map(item));
    bytes
}

/// What checking a book of the ladder answers: code and units.
fn made(items: &[Item]) -> (u64, u64) {
    let found = checked_of(&ladder(items));
    (found.code, found.units)
}

/// Code, place, units, plan bytes and legs.
fn forecasted(book: &[u8], i: u64) -> [u64; 5] {
    let found = forecast(book, i);
    [
        found.code,
        found.place,
        found.units,
        found.plan_bytes,
        found.legs,
    ]
}

/// Of all starts the highest has no end.
const UP: Item = (&[0], &[1], 15, 15);

#[test]
fn a_start_without_an_end_costs_the_same() {
    for (item, units) in [
        (UP, 8),
        ((&[0], &[1], 15, 7), 6),
        ((&[0], &[0, 0, 1, 1, 1], 15, 9), 12),
        // Only the lowest goes on at all.
        ((&[2, 1], &[], 1, 15), 8),
        ((&[2, 1, 0], &[1, 0, 1], 2, 15), 24),
    ] {
        assert_eq!(made(&[item]), (0, units));
        assert_eq!(forecasted(&ladder(&[item]), 0), [0, 0, units, 0, 0]);
        assert_eq!(made(&[UP, item, UP]), (0, 8 + units + 8));
    }
}

#[test]
fn units_up_to_the_command_that_is_stuck() {
    // From 0 the reverse comes back, from 1 the second command is stuck, from 2
    // the first.
    let over = |psi| made(&[(&[0], &[0, 0, 1, 1, 1], 15, psi)]);
    assert_eq!(over(1), (0, 6));
    assert_eq!(over(2), (8, 3));
    assert_eq!(over(4), (8, 2));
    assert_eq!(over(3), (8, 6 + 3));
    assert_eq!(over(5), (8, 6 + 2));
    // The lowest start decides.
    assert_eq!(over(6), (8, 3));
    assert_eq!(over(12), (8, 2));
    // After a start without an end.
    assert_eq!(made(&[(&[1], &[1, 0, 0], 15, 3)]), (8, 4 + 2));
    // One of two states is stuck, the other could go on.
    assert_eq!(made(&[(&[2], &[0], 15, 1)]), (8, 2));
    assert_eq!(made(&[(&[2], &[1, 1, 0, 0], 15, 1)]), (8, 3));
}

#[test]
fn units_where_a_run_ends_outside_its_start() {
    assert_eq!(made(&[(&[0], &[0], 15, 1)]), (8, 2));
    assert_eq!(made(&[(&[0, 0], &[1], 15, 3)]), (8, 3));
    // One of two runs.
    assert_eq!(made(&[(&[2], &[1], 15, 1)]), (8, 2));
    // Without reverse commands the forward ones count.
    assert_eq!(made(&[(&[0], &[], 15, 1)]), (8, 1));
    assert_eq!(made(&[(&[0, 0], &[], 15, 3)]), (8, 2));
    assert_eq!(made(&[(&[1], &[], 15, 3)]), (8, 1 + 1));
}

#[test]
fn units_of_an_item_that_can_never_be_used() {
    for (phi, psi, units) in [(1, 15, 12), (15, 8, 3), (15, 0, 0), (0, 5, 6)] {
        // With an end no start comes back.
        assert_eq!(made(&[(&[0], &[0, 0], phi, psi)]), (12, units));
    }
}

#[test]
fn units_of_the_items_before_count() {
    let stuck: Item = (&[0], &[0, 0, 1, 1, 1], 15, 2);
    let never: Item = (&[0], &[1, 1], 1, 15);
    assert_eq!(made(&[]), (0, 0));
    assert_eq!(made(&[UP, stuck, UP]), (8, 8 + 3));
    assert_eq!(made(&[UP, UP, never, stuck]), (12, 8 + 8 + 12));
    assert_eq!(made(&[UP, stuck, never]), (8, 8 + 3));
}

#[test]
fn forecasts_of_q() {
    let q = book(&Q);
    for weights in [&[][..], &[7, 1, 1000]] {
        let q = weighted(&q, weights);
        assert_eq!(forecasted(&q, 0), [0, 0, 27, 0, 0]);
        assert_eq!(forecasted(&q, 1), [0, 0, 27, 2, 1]);
        assert_eq!(forecasted(&q, 32), [0, 0, 27, 64, 32]);
        for i in [33, 256, (1 << 32) + 5, u64::MAX] {
            assert_eq!(forecasted(&q, i), [9, 0, 0, 0, 0]);
        }
    }
    // The largest r, wherever it stands.
    assert_eq!(forecasted(&book(&[Q[3]]), 32), [0, 0, 1, 0, 32]);
    assert_eq!(forecasted(&book(&[Q[3], Q[1]]), 5), [0, 0, 3, 5, 5]);
    assert_eq!(forecasted(&book(&[Q[1], Q[0], Q[3]]), 5), [0, 0, 12, 10, 5]);
}

#[test]
fn a_forecast_without_items() {
    let device = [2, 0, 1, 0, 64, 32];
    for book in [&book(&[])[..], &device] {
        assert_eq!(forecasted(book, 0), [0; 5]);
        assert_eq!(forecasted(book, 32), [0, 0, 0, 0, 32]);
        assert_eq!(forecasted(book, 33), [9, 0, 0, 0, 0]);
    }
}

/// Items that checking turns down count whole.
#[test]
fn a_forecast_does_not_judge() {
    assert_eq!(forecasted(&book(&[STUCK]), 3), [0, 0, 6, 3, 3]);
    assert_eq!(
        forecasted(&book(&[PSI_3, NO_TRAJECTORY, Q[0]]), 3),
        [0, 0, 4 + 6 + 9, 6, 3]
    );
}

#[test]
fn a_forecast_refuses_as_reading_does() {
    let q = book(&Q);
    let with = |at: usize, byte| {
        let mut bytes = q.clone();
        bytes[at] = byte;
        reading_refused(&bytes)
    };
    assert_eq!(reading_refused(&[]), (2, 0));
    assert_eq!(reading_refused(&q[..103]), (2, 90));
    assert_eq!(reading_refused(&q[..224]), (2, 201));
    // The second item at 129: its kind, its length, its r, its psi.
    assert_eq!(with(131, 9), (3, 129));
    assert_eq!(with(129, 19), (4, 129));
    assert_eq!(with(129, 21), (4, 129));
    assert_eq!(with(134, 9), (5, 129));
    assert_eq!(with(145, 8), (5, 129));
    let fallen = [&q[..6], &q[20..34], &q[6..20], &q[34..]].concat();
    assert_eq!(reading_refused(&fallen), (6, 20));
    assert_eq!(reading_refused(&book(&[Q[0]; 65])), (7, 104 + 64 * 25));
    assert_eq!(reading_refused(&weighted(&q, &[1, 1, 1])), (13, 6));
}

/// "The forecast never exceeds 65,536."
#[test]
fn the_most_units() {
    let mut bytes = vec![2, 0, 1, 0, 64, 1];
    for state in 0..64 {
        bytes.extend([10, 0, 2, 0, state, 0]);
        bytes.extend((1u64 << state).to_le_bytes());
    }
    let largest = item(&(&[0; 8], &[0; 8], u64::MAX, u64::MAX));
    bytes.extend(largest.repeat(64));
    let good = Checking {
        code: 0,
        place: 0,
        n: 64,
        m: 1,
        items: 64,
        units: 65_536,
    };
    assert_eq!(checked_of(&bytes), good);
    assert_eq!(forecasted(&bytes, 32), [0, 0, 65_536, 256, 32]);
}

// A scratch

/// A short buffer goes before the book's faults and leaves all untouched.
#[test]
fn a_short_scratch_is_refused_first() {
    let good = run(&[2, 1], &[7, 7, 7]);
    let short = Assembly {
        code: 1,
        place: 0,
        commands: 0,
        legs: 0,
        sum: 0,
        fewest: fewest(&[]),
    };
    let stated = [64, 256, 96];
    for book in [book(&Q), book(&[STUCK]), vec![]] {
        for run in [&good[..], &[]] {
            for which in 0..3 {
                for length in [0, 1, stated[which] - 1] {
                    let mut lengths = stated;
                    lengths[which] = length;
                    let before = (
                        vec![79; lengths[0]],
                        vec![77; lengths[1]],
                        vec![78; lengths[2]],
                    );
                    let mut lent = before.clone();
                    let found = assemble_small(&book, run, &mut lent.0, &mut lent.1, &mut lent.2);
                    assert_eq!((found, lent), (short, before));
                }
            }
        }
    }
}

/// From the first state a command leads on to every state; it is undone from
/// each of them. The highest state counts as the lowest does.
#[test]
fn a_scratch_holds_every_state() {
    let mut bytes = vec![2, 0, 1, 0, 64, 2];
    for state in 0..64 {
        let outcomes = if state == 0 { u64::MAX } else { 1 << 63 };
        for (command, mask) in [(0, outcomes), (1, 1)] {
            bytes.extend([10, 0, 2, 0, state, command]);
            bytes.extend(mask.to_le_bytes());
        }
    }
    let sent = run(&[0], &[u64::MAX; 2]);
    let with = |psi| {
        let book = [&bytes[..], &item(&(&[0], &[1], u64::MAX, psi))].concat();
        assert_eq!(checked_of(&book).code, if psi == 1 { 0 } else { 8 });
        let (found, plan, legs) = assembled_of(&book, &sent);
        (found.code, plan, legs)
    };
    assert_eq!(with(1), (11, vec![], vec![]));
    assert_eq!(with(1 << 63), (8, vec![], vec![]));
    assert_eq!(with(1 | 1 << 63), (8, vec![], vec![]));
    let book = [&bytes[..], &item(&(&[0], &[1], u64::MAX, 1))].concat();
    let (found, plan, legs) = assembled_of(&book, &run(&[0], &[1, 1 << 63]));
    assert_eq!((found.code, plan, legs), (0, vec![1], vec![[0, 1, 0]]));
}

// Reverses that are found

/// A ring of eight states: command 0 goes on by one, 1 by two.
fn ring() -> Vec<u8> {
    let mut bytes = vec![2, 0, 1, 0, 8, 2];
    for state in 0..8 {
        for command in 0..2 {
            let mask = 1 << ((state + command + 1) % 8);
            bytes.extend([10, 0, 2, 0, state, command, mask, 0, 0, 0, 0, 0, 0, 0]);
        }
    }
    bytes
}

/// The code and the commands. A table of the stated length and a longer one
/// hold what checking leaves. A reverse makes an item that checking accepts;
/// there is none of fewer commands, and no lower one of as many.
fn found_of(book: &[u8], forward: &[u8], phi: u64, psi: u64) -> (u64, Vec<u8>) {
    let [found, again] = [2048, 2053].map(|length| {
        let mut table: Vec<u64> = (1..=length).collect();
        let mut lent = Lent::new(STATED);
        lent.table = table.clone();
        let checked = lent.check(book);
        let found = find(book, forward, phi, psi, &mut table);
        assert_eq!(table, lent.table);
        if checked.code == 0 {
            assert!([0, 14, 15].contains(&found.code), "{found:?}");
            assert_eq!(found.place, 0);
        } else {
            let head = (found.code, found.place);
            assert_eq!(head, (checked.code, checked.place));
        }
        found
    });
    assert_eq!(found, again);
    let (used, unused) = found.commands.split_at(found.count as usize);
    assert!(unused.iter().all(|&command| command == 0));
    let expected = match found.code {
        0 | 15 => least_accepted(book, forward, phi, psi),
        _ => None,
    };
    assert_eq!(found.code == 0, expected.is_some());
    assert_eq!(used, expected.unwrap_or_default());
    (found.code, used.to_vec())
}

/// Of all reverses up to three commands the first that checking accepts with
/// these forward commands and masks, on the book's device.
fn least_accepted(book: &[u8], forward: &[u8], phi: u64, psi: u64) -> Option<Vec<u8>> {
    let m = book[5];
    let accepted = |reverse: &[u8]| {
        let last = item(&(forward, reverse, phi, psi));
        let mut lent = Lent::new(STATED);
        lent.check(&[book, &last].concat()).code == 0
    };
    let mut reverses = vec![vec![]];
    for _ in 0..4 {
        if let Some(found) = reverses.iter().find(|reverse| accepted(reverse)) {
            return Some(found.clone());
        }
        reverses = (reverses.iter())
            .flat_map(|reverse| (0..m).map(move |command| [&reverse[..], &[command]].concat()))
            .collect();
    }
    None
}

#[test]
fn reverses_on_a_ring() {
    let none = (15, vec![]);
    let back = |commands: &[u8]| (0, commands.to_vec());
    // By their number, whatever they weigh.
    for weights in [&[][..], &[1, 1000], &[1000, 1], &[1000, 1000]] {
        let book = weighted(&ring(), weights);
        let found = |forward: &[u8]| found_of(&book, forward, 255, 255);
        assert_eq!(found(&[0]), none);
        assert_eq!(found(&[1]), back(&[1, 1, 1]));
        assert_eq!(found(&[0, 1]), back(&[0, 1, 1]));
        assert_eq!(found(&[0, 1, 1]), back(&[0, 1]));
        assert_eq!(found(&[1, 1, 1]), back(&[1]));
        assert_eq!(found(&[1, 1, 1, 1]), back(&[]));
        // Their order makes no difference, nor does going round again.
        assert_eq!(found(&[1, 0]), back(&[0, 1, 1]));
        assert_eq!(found(&[1, 0, 1]), back(&[0, 1]));
        assert_eq!(found(&[0; 7]), back(&[0]));
        assert_eq!(found(&[0; 8]), back(&[]));
        assert_eq!(found(&[1; 8]), back(&[]));
        assert_eq!(found(&[0, 1, 1, 1, 1]), none);
        assert_eq!(found(&[1, 1, 1, 1, 1, 1, 0]), back(&[0, 1]));
    }
}

/// The dearest is taken where it is lower, and where others are longer.
#[test]
fn reverses_whatever_they_weigh() {
    for weights in [&[][..], &[1000, 1, 1], &[1000, 1000, 1]] {
        let book = switch(weights, &[OFF, OVER]);
        assert_eq!(found_of(&book, &[1], 3, 1), (0, vec![0]));
        assert_eq!(found_of(&book, &[0], 3, 2), (0, vec![1]));
        assert_eq!(found_of(&book, &[2], 3, 3), (0, vec![2]));
        assert_eq!(found_of(&book, &[1], 3, 3), (15, vec![]));
    }
}

/// Ends outside phi, starts without an end: nothing is asked of them.
#[test]
fn reverses_for_some_states() {
    let book = ring();
    for (phi, psi) in [(4, 1), (4, 255), (255, 1), (12, 35), (128, 32)] {
        assert_eq!(found_of(&book, &[1], phi, psi), (0, vec![1, 1, 1]));
    }
    for (phi, psi) in [(4, 2), (4, 254), (3, 7), (0, 255), (255, 0), (0, 0)] {
        assert_eq!(found_of(&book, &[1], phi, psi), (15, vec![]));
    }
}

#[test]
fn reverses_on_q() {
    let q = book(&Q);
    let found = |forward: &[u8], phi, psi| found_of(&q, forward, phi, psi);
    // Items 0 and 4 ask for the same, 1 to 3 for something else.
    assert_eq!(found(&[2], 7, 7), (0, vec![0]));
    assert_eq!(found(&[1], 7, 1), (0, vec![0]));
    assert_eq!(found(&[2, 1], 7, 7), (0, vec![0]));
    assert_eq!(found(&[1], 7, 2), (0, vec![]));
    assert_eq!(found(&[2, 0], 7, 7), (0, vec![]));
    assert_eq!(found(&[0], 7, 2), (0, vec![1]));
    // Two starts with the same end, and no trajectory.
    assert_eq!(found(&[1], 7, 3), (15, vec![]));
    assert_eq!(found(&[2, 2], 7, 7), (15, vec![]));
    assert_eq!(found(&[2], 0, 7), (15, vec![]));
    assert_eq!(found(&[2], 7, 0), (15, vec![]));
    // Nothing leads to state 2 alone.
    assert_eq!(found(&[0], 7, 4), (15, vec![]));
    // Eight commands are the most.
    assert_eq!(found(&[2, 0, 2, 0, 2, 0, 2, 1], 7, 7), (0, vec![0]));
}

#[test]
fn what_no_item_may_hold() {
    let q = book(&Q);
    let none = (14, vec![]);
    assert_eq!(found_of(&q, &[2], 8, 7), none);
    assert_eq!(found_of(&q, &[2], 7, 8), none);
    assert_eq!(found_of(&q, &[2], 7, 1 << 63), none);
    assert_eq!(found_of(&q, &[2], u64::MAX, 7), none);
    assert_eq!(found_of(&q, &[2], 1 << 32, 0), none);
    assert_eq!(found_of(&q, &[], 7, 7), none);
    for length in [9, 10, 256, 257, 264, 65_537] {
        assert_eq!(found_of(&q, &vec![0; length], 7, 7), none);
    }
    for command in [3, 32, 34, 128, 255] {
        assert_eq!(found_of(&q, &[command], 7, 7), none);
        assert_eq!(found_of(&q, &[2, command, 0], 7, 7), none);
        assert_eq!(found_of(&q, &[0, 0, 0, 0, 0, 0, 0, command], 7, 7), none);
    }
    // It goes before 15.
    assert_eq!(found_of(&q, &[1, 3], 7, 3), none);
    assert_eq!(found_of(&q, &[2, 2], 0, 8), none);
    // Of 64 states each may be there, and of 32 commands each be sent.
    let device = [2, 0, 1, 0, 64, 32];
    assert_eq!(found_of(&device, &[31], u64::MAX, u64::MAX).0, 15);
    assert_eq!(found_of(&device, &[32], u64::MAX, u64::MAX).0, 14);
}

/// The table as it is left, entry by entry.
#[test]
fn the_table_of_a_search() {
    let q = book(&Q);
    let after = |book: &[u8], forward: &[u8], phi, psi| {
        let mut table: Vec<u64> = (1..=2048).collect();
        let found = find(book, forward, phi, psi, &mut table);
        // What Q doesn't have stays.
        assert!((10..).zip(&table[9..]).all(|(before, &now)| now == before));
        let head = [found.code, found.place, found.count];
        (head, found.commands, table[..9].to_vec())
    };
    let read = || vec![1, 2, 6, 1, 2, 0, 1, 2, 0];
    let untouched = || (1..=9).collect::<Vec<u64>>();
    assert_eq!(after(&q, &[0], 7, 2), ([0, 0, 1], [1, 0, 0], read()));
    assert_eq!(after(&q, &[1], 7, 3), ([15, 0, 0], [0; 3], read()));
    assert_eq!(after(&q, &[2, 2], 7, 7), ([15, 0, 0], [0; 3], read()));
    assert_eq!(after(&q, &[2], 0, 7), ([15, 0, 0], [0; 3], read()));
    assert_eq!(after(&q, &[2], 8, 7), ([14, 0, 0], [0; 3], read()));
    assert_eq!(after(&q, &[], 7, 7), ([14, 0, 0], [0; 3], read()));
    assert_eq!(after(&q, &[0; 9], 7, 7), ([14, 0, 0], [0; 3], read()));
    assert_eq!(after(&q, &[3], 7, 7), ([14, 0, 0], [0; 3], read()));
    for (item, code) in [(STUCK, 8), (NO_TRAJECTORY, 12)] {
        let wrong = book(&[Q[0], item]);
        for forward in [&[2][..], &[], &[3], &[1]] {
            let expected = ([code, 129, 0], [0; 3], read());
            assert_eq!(after(&wrong, forward, 7, 7), expected);
        }
    }
    for forward in [&[2][..], &[], &[3]] {
        let cut = ([2, 201, 0], [0; 3], untouched());
        assert_eq!(after(&q[..224], forward, 7, 7), cut);
        let ones = ([13, 6, 0], [0; 3], untouched());
        assert_eq!(after(&weighted(&q, &[1, 1, 1]), forward, 7, 7), ones);
    }
}

/// A short table goes before the book's faults and all that is asked.
#[test]
fn a_short_table_is_refused_first() {
    let short = Found {
        code: 1,
        place: 0,
        count: 0,
        commands: [0; 3],
    };
    for book in [book(&Q), book(&[STUCK]), vec![]] {
        for forward in [&[2][..], &[], &[0; 9], &[3]] {
            for phi in [7, 8] {
                for length in [0, 1, 9, 2047] {
                    let before: Vec<u64> = (1..=length).collect();
                    let mut table = before.clone();
                    assert_eq!(find(&book, forward, phi, 7, &mut table), short);
                    assert_eq!(table, before);
                }
            }
        }
    }
}

/// Reading's places are those of the book; 64 items are no obstacle.
#[test]
fn reverses_and_the_books_own_codes() {
    let full = book(&[Q[1]; 64]);
    let mut table = [0; 2048];
    let found = find(&full, &[2], 7, 7, &mut table);
    assert_eq!((found.code, found.count, found.commands), (0, 1, [0; 3]));
    let mut refused = |book: &[u8]| {
        let found = find(book, &[2], 7, 7, &mut table);
        assert_eq!((found.count, found.commands), (0, [0; 3]));
        (found.code, found.place)
    };
    assert_eq!(refused(&book(&[Q[1]; 65])), (7, 104 + 64 * 24));
    assert_eq!(refused(&book(&[Q[3], PSI_3, STUCK])), (8, 127));
    assert_eq!(refused(&book(&[NO_TRAJECTORY, STUCK])), (12, 104));
    assert_eq!(refused(&[]), (2, 0));
    assert_eq!(refused(&full[..103]), (2, 90));
    let mut last = book(&[Q[1]; 64]);
    last[104 + 63 * 24 + 2] = 2;
    assert_eq!(refused(&last), (3, 104 + 63 * 24));
}

/// Many outcomes: none may be stuck, and all must arrive.
#[test]
fn reverses_after_branching() {
    // Command 2 of the ladder leads from 0 to 1 or 3.
    let book = ladder(&[]);
    assert_eq!(found_of(&book, &[2], 15, 15), (15, vec![]));
    assert_eq!(found_of(&book, &[2], 2, 15), (0, vec![1]));
    assert_eq!(found_of(&book, &[2], 8, 15), (0, vec![1, 1, 1]));
    assert_eq!(found_of(&book, &[0, 0], 15, 15), (0, vec![1, 1]));
    assert_eq!(found_of(&book, &[0, 0, 0], 15, 15), (0, vec![1, 1, 1]));
    // From there to 0 or 2.
    assert_eq!(found_of(&book, &[2, 1], 15, 15), (15, vec![]));
    assert_eq!(found_of(&book, &[2, 1], 1, 15), (0, vec![]));
    assert_eq!(found_of(&book, &[2, 1], 4, 15), (0, vec![1, 1]));
}

/// A device of 32 commands of which only the last goes on, by 16 of 64 states:
/// 31 31 31 is the last reverse of all.
#[test]
fn the_last_reverse_of_all() {
    let mut bytes = vec![2, 0, 1, 0, 64, 32];
    for state in 0..64u8 {
        bytes.extend([10, 0, 2, 0, state, 31]);
        bytes.extend((1u64 << ((state + 16) % 64)).to_le_bytes());
    }
    let back = |forward: &[u8]| {
        let found = find(&bytes, forward, u64::MAX, u64::MAX, &mut [0; 2048]);
        (found.code, found.count, found.commands)
    };
    assert_eq!(back(&[31]), (0, 3, [31, 31, 31]));
    assert_eq!(back(&[31, 31]), (0, 2, [31, 31, 0]));
    assert_eq!(back(&[31, 31, 31]), (0, 1, [31, 0, 0]));
    assert_eq!(back(&[31, 31, 31, 31]), (0, 0, [0, 0, 0]));
    assert_eq!(back(&[30]), (15, 0, [0, 0, 0]));
}

/// A ring of 16 states: command 0 goes on by one, 1 by nine, 2 by six.
#[test]
fn the_first_difference_decides() {
    let mut bytes = vec![2, 0, 1, 0, 16, 3];
    for state in 0..16u8 {
        for (command, step) in [(0, 1), (1, 9), (2, 6)] {
            bytes.extend([10, 0, 2, 0, state, command]);
            bytes.extend((1u64 << ((state + step) % 16)).to_le_bytes());
        }
    }
    let found = |forward: &[u8]| found_of(&bytes, forward, 65_535, 65_535);
    // On by 7: not 2 0. On by 10: not 1 0. On by 13: neither 2 0 2 nor 2 2 0.
    assert_eq!(found(&[1]), (0, vec![0, 2]));
    assert_eq!(found(&[2]), (0, vec![0, 1]));
    assert_eq!(found(&[0, 0, 0]), (0, vec![0, 2, 2]));
    // On by 2: not 1 1. On by 9.
    assert_eq!(found(&[0, 1, 0, 0, 0, 0]), (0, vec![0, 0]));
    assert_eq!(found(&[2, 0]), (0, vec![1]));
}

fn found(mask: u64) -> Lookup {
    Lookup {
        code: 0,
        place: 0,
        mask,
    }
}

/// How many masks of a device have no state, one, two and so on.
fn sizes(lookup: fn(u64, u64) -> Lookup, states: u64, commands: u64) -> [u64; 5] {
    let mut sizes = [0; 5];
    for state in 0..states {
        for command in 0..commands {
            let looked = lookup(state, command);
            assert_eq!((looked.code, looked.place), (0, 0));
            sizes[looked.mask.count_ones() as usize] += 1;
        }
    }
    sizes
}

fn refuses_from(lookup: fn(u64, u64) -> Lookup, states: u64, commands: u64) {
    let outside = Lookup {
        code: 5,
        place: 0,
        mask: 0,
    };
    let far = [1 << 32, u64::MAX];
    for state in [states, states + 1].into_iter().chain(far) {
        assert_eq!(lookup(state, 0), outside);
        assert_eq!(lookup(state, commands), outside);
    }
    for command in [commands, commands + 1].into_iter().chain(far) {
        assert_eq!(lookup(0, command), outside);
        assert_eq!(lookup(states - 1, command), outside);
    }
}

#[test]
fn ridge_facts() {
    let sizes = sizes(ridge, 64, 16);
    assert_eq!(sizes[1..].iter().sum::<u64>(), 616);
    assert_eq!(ridge(0, 13), found(15));
    assert_eq!(ridge(16, 2), found(327_680));
    refuses_from(ridge, 64, 16);
}

#[test]
fn portable_facts() {
    // Two outcomes: the 16 states in relay, the 7 channels that aren't the present one.
    assert_eq!(sizes(portable, 32, 12), [0, 384 - 112, 112, 0, 0]);
    // From channel 3, power 1, in standby and in relay.
    assert_eq!(portable(11, 6), found(1 << 14));
    assert_eq!(portable(27, 6), found(1 << 27 | 1 << 30));
    assert_eq!(portable(27, 3), found(1 << 27));
    assert_eq!(portable(27, 8), found(1 << 19));
    assert_eq!(portable(11, 9), found(1 << 11));
    assert_eq!(portable(11, 10), found(1 << 27));
    assert_eq!(portable(27, 11), found(1 << 11));
    refuses_from(portable, 32, 12);
}
