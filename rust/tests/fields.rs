//! The order of fields: any two fields of a result differ in one of its answers here. The numbers of
//! a book that is accepted are all different, and a refusal has another code than place.
//! `c/header.c` does the same in C.

use rollback::calls::{
    self, Assembly, Checking, Forecasted, Found, Leg, Lookup, Paged, Reading, Writing,
};
use rollback::NONE;
use rollback_cases::device::{book_bytes, run_bytes, Device, Item};

/// Seven states, of which 0 alone has moves, 32 commands of weight 3 that stay there, and 64 items:
/// 0 to 31 undo command 0 to 31 by sending it three times, 32 to 63 by sending it twice.
fn good() -> Vec<u8> {
    let mut device = Device::empty(7, 32);
    device.weights = vec![3; 32];
    for command in 0..32 {
        device.set(0, command, 1);
    }
    let item = |number: u8| Item {
        forward: vec![number % 32],
        reverse: vec![number % 32; if number < 32 { 3 } else { 2 }],
        phi: 1,
        psi: 1,
    };
    book_bytes(&device, &(0..64).map(item).collect::<Vec<_>>())
}

/// Where items 5 and 40 stand.
const REFUSED_READING: u64 = 652;
const REFUSED_CHECKING: u64 = 1_554;

/// The good book with one byte changed.
fn with_byte(place: u64, byte: u8) -> Vec<u8> {
    let mut book = good();
    book[usize::try_from(place).unwrap()] = byte;
    book
}

/// Item 5 with k 0: 5 for every call.
fn no_reading() -> Vec<u8> {
    with_byte(REFUSED_READING + 4, 0)
}

/// Item 40 with phi {1}: 12 for checking and assembling.
fn no_checking() -> Vec<u8> {
    with_byte(REFUSED_CHECKING + 9, 2)
}

/// The command between points j and j + 1: each once, and not in their order.
fn sent(j: u8) -> u8 {
    (5 * j + 3) % 32
}

/// All 32 commands; nothing was heard.
fn run() -> Vec<u8> {
    run_bytes(&(0..32).map(sent).collect::<Vec<_>>(), &[127; 33])
}

/// The legs of the plan for that run: in each, three different numbers.
fn legs() -> [[u8; 3]; 32] {
    let legs = std::array::from_fn(|t| {
        let j = 31 - u8::try_from(t).unwrap();
        [32 + sent(j), j + 1, j]
    });
    assert!(legs
        .iter()
        .all(|[item, upper, lower]| item != upper && item != lower));
    legs
}

/// Two commands of weight 3 for each of 32 legs, so that the number of point j is 6 × j.
fn expect_assembled(r: &Assembly) {
    assert_eq!(
        [r.code, r.place, r.commands, r.legs, r.sum],
        [0, 0, 64, 32, 192]
    );
    assert!(r.fewest.iter().copied().eq((0..33).map(|j| 6 * j)));
}

fn expect_not_assembled(r: &Assembly) {
    assert_eq!(
        [r.code, r.place, r.commands, r.legs, r.sum],
        [12, REFUSED_CHECKING, 0, 0, 0]
    );
    assert_eq!(r.fewest, [NONE; calls::POINTS_LEN]);
}

/// What the calls are lent.
struct Lent {
    table: [u64; calls::TABLE_LEN],
    slots: [u8; calls::SLOTS_LEN],
    weights: [u16; calls::WEIGHTS_LEN],
    plan: [u8; calls::PLAN_LEN],
    legs: [u8; calls::LEGS_LEN],
}

impl Lent {
    fn new() -> Lent {
        Lent {
            table: [0; calls::TABLE_LEN],
            slots: [0; calls::SLOTS_LEN],
            weights: [0; calls::WEIGHTS_LEN],
            plan: [0; calls::PLAN_LEN],
            legs: [0; calls::LEGS_LEN],
        }
    }

    fn read(&mut self, book: &[u8]) -> Reading {
        calls::read(book, &mut self.table, &mut self.slots, &mut self.weights)
    }

    fn check(&mut self, book: &[u8]) -> Checking {
        calls::check(book, &mut self.table, &mut self.slots, &mut self.weights)
    }

    fn write(&self) -> Writing {
        let mut out = [0; calls::OUT_LEN];
        calls::write(7, 32, 64, &self.table, &self.slots, &self.weights, &mut out)
    }

    #[rustfmt::skip]
    fn assemble(&mut self, book: &[u8]) -> Assembly {
        calls::assemble(
            book, &run(), &mut self.table, &mut self.slots, &mut self.weights, &mut self.plan, &mut self.legs,
        )
    }

    #[rustfmt::skip]
    fn assemble_legs(&mut self, book: &[u8], legs: &mut [Leg]) -> Assembly {
        calls::assemble_legs(
            book, &run(), &mut self.table, &mut self.slots, &mut self.weights, &mut self.plan, legs,
        )
    }

    #[rustfmt::skip]
    fn page(&mut self, book: &[u8]) -> Paged {
        calls::page(
            book, &run(), &mut self.table, &mut self.slots, &mut self.weights, &mut self.plan, &mut self.legs,
            &mut [0; calls::PAGE_LEN],
        )
    }
}

#[test]
fn of_reading() {
    let is =
        |r: Reading, expected: [u64; 5]| assert_eq!([r.code, r.place, r.n, r.m, r.items], expected);
    is(Lent::new().read(&good()), [0, 0, 7, 32, 64]);
    is(
        Lent::new().read(&no_reading()),
        [5, REFUSED_READING, 0, 0, 0],
    );
}

#[test]
fn of_checking() {
    let is = |r: Checking, expected: [u64; 6]| {
        assert_eq!([r.code, r.place, r.n, r.m, r.items, r.units], expected);
    };
    is(Lent::new().check(&good()), [0, 0, 7, 32, 64, 224]);
    is(
        Lent::new().check(&no_checking()),
        [12, REFUSED_CHECKING, 0, 0, 0, 155],
    );
}

#[test]
fn of_a_forecast() {
    let is = |r: Forecasted, expected: [u64; 5]| {
        assert_eq!([r.code, r.place, r.units, r.plan_bytes, r.legs], expected);
    };
    is(calls::forecast(&good(), 9), [0, 0, 224, 27, 9]);
    is(
        calls::forecast(&no_reading(), 9),
        [5, REFUSED_READING, 0, 0, 0],
    );
}

/// Four states with one move each: command 0 leads from state 0 to 3, and 4, 1 and 2 lead from there
/// back to 0, by 2 and 1.
fn around() -> Vec<u8> {
    let mut device = Device::empty(4, 5);
    for (state, command, to) in [(0, 0, 3), (3, 4, 2), (2, 1, 1), (1, 2, 0)] {
        device.set(state, command, 1 << to);
    }
    book_bytes(&device, &[])
}

#[test]
fn of_finding() {
    let find = |book: &[u8]| calls::find(book, &[0], 15, 15, &mut [0; calls::TABLE_LEN]);
    let is = |r: Found, expected: [u64; 3], commands: [u8; 3]| {
        assert_eq!([r.code, r.place, r.count], expected);
        assert_eq!(r.commands, commands);
    };
    let book = around();
    is(find(&book), [0, 0, 3], [4, 1, 2]);
    is(find(&book[..book.len() - 1]), [2, 48, 0], [0; 3]);
}

#[test]
fn of_writing() {
    let is = |r: Writing, expected: [u64; 3]| assert_eq!([r.code, r.place, r.length], expected);
    let mut lent = Lent::new();
    assert_eq!(lent.read(&good()).code, 0);
    is(lent.write(), [0, 0, good().len() as u64]);
    lent.weights[9] = 0;
    is(lent.write(), [5, 9, 0]);
}

#[test]
fn of_a_lookup() {
    let is = |r: Lookup, expected: [u64; 3]| assert_eq!([r.code, r.place, r.mask], expected);
    is(calls::ridge(0, 13), [0, 0, 15]);
    is(calls::ridge(64, 0), [5, 0, 0]);
    is(calls::portable(16, 5), [0, 0, 1 << 16 | 1 << 21]);
    is(calls::portable(0, 12), [5, 0, 0]);
}

#[test]
fn of_assembling() {
    let mut lent = Lent::new();
    expect_assembled(&lent.assemble(&good()));
    assert_eq!(lent.legs, legs().as_flattened());
    expect_not_assembled(&lent.assemble(&no_checking()));
}

#[test]
fn of_a_leg() {
    let mut found = [Leg::default(); calls::LEG_STRUCTS_LEN];
    expect_assembled(&Lent::new().assemble_legs(&good(), &mut found));
    assert_eq!(found.map(|leg| [leg.item, leg.upper, leg.lower]), legs());
}

#[test]
fn of_assembling_with_a_scratch() {
    let mut lent = Lent::new();
    let mut small = |book: &[u8]| {
        calls::assemble_small(
            book,
            &run(),
            &mut [0; calls::SCRATCH_LEN],
            &mut lent.plan,
            &mut lent.legs,
        )
    };
    expect_assembled(&small(&good()));
    expect_not_assembled(&small(&no_checking()));
    assert_eq!(lent.legs, legs().as_flattened());
}

#[test]
fn of_a_page() {
    let paged = Lent::new().page(&good());
    expect_assembled(&paged.assembly);
    assert_eq!(paged.length, 1_312);
    let paged = Lent::new().page(&no_checking());
    expect_not_assembled(&paged.assembly);
    assert_eq!(paged.length, 0);
}
