//! The cases that a second program, by other hands, has answered. They stand once, beside the test
//! programs of `crates/` that the gate runs; numbers in the files are little-endian.

macro_rules! data {
    ($name:literal) => {
        include_bytes!(concat!(env!("CARGO_MANIFEST_DIR"), "/../../crates/", $name))
    };
}

macro_rules! answers {
    ($name:literal) => {
        include_str!(concat!(
            env!("CARGO_MANIFEST_DIR"),
            "/../../crates/",
            $name,
            "/stdout"
        ))
    };
}

/// A book and run with what assembling must answer.
#[derive(Clone, Debug)]
pub struct AssembleCase {
    pub book: Vec<u8>,
    pub run: Vec<u8>,
    pub code: u64,
    pub place: u64,
    pub commands: u64,
    pub legs: u64,
    pub sum: u64,
    /// The plan's bytes up to its count.
    pub plan: Vec<u8>,
    /// Item, upper and lower of each leg.
    pub leg_list: Vec<[u8; 3]>,
    pub fewest: [u32; 33],
}

/// A book with what reading and checking must answer.
#[derive(Clone, Debug)]
pub struct BookCase {
    pub book: Vec<u8>,
    /// What the lent buffers hold before each call.
    pub table: Vec<u64>,
    pub slots: Vec<u8>,
    pub weights: Vec<u16>,
    /// Code, place, n, m, count.
    pub reading: [u64; 5],
    /// The same, and the units.
    pub checking: [u64; 6],
    /// After checking: entries 0 to 39, slot bytes 0 to 101, weights 0 to 31 as far as they are lent.
    pub table_after: Vec<u64>,
    pub slots_after: Vec<u8>,
    pub weights_after: Vec<u16>,
}

/// What is given to a forecast and what it must answer.
#[derive(Clone, Debug)]
pub struct ForecastCase {
    pub book: Vec<u8>,
    pub i: u64,
    /// Code, place, units, plan bytes, legs.
    pub answer: [u64; 5],
}

/// What is given to finding a reverse and what it must answer.
#[derive(Clone, Debug)]
pub struct FindCase {
    pub book: Vec<u8>,
    pub forward: Vec<u8>,
    pub phi: u64,
    pub psi: u64,
    /// What the lent table holds before the call.
    pub table: Vec<u64>,
    pub code: u64,
    pub place: u64,
    pub count: u64,
    pub commands: [u8; 3],
    /// Entries 0 to 15 afterwards.
    pub table_after: Vec<u64>,
}

/// What is given to writing and what it must answer.
#[derive(Clone, Debug)]
pub struct WriteCase {
    pub n: u64,
    pub m: u64,
    pub items: u64,
    pub table: Vec<u64>,
    pub slots: Vec<u8>,
    pub weights: Vec<u16>,
    /// What the output holds before.
    pub out: Vec<u8>,
    pub code: u64,
    pub place: u64,
    pub length: u64,
    /// The output's bytes 0 to length + 3 afterwards.
    pub out_after: Vec<u8>,
}

/// What is given to the page and what it must answer.
#[derive(Clone, Debug)]
pub struct PageCase {
    pub book: Vec<u8>,
    pub run: Vec<u8>,
    /// What the lent buffers hold before the call.
    pub table: Vec<u64>,
    pub slots: Vec<u8>,
    pub weights: Vec<u16>,
    pub plan: Vec<u8>,
    pub legs: Vec<u8>,
    pub page: Vec<u8>,
    /// Code, place, count of commands, count of legs, sum, length.
    pub head: [u64; 6],
    pub fewest: [u32; 33],
    /// The page's bytes 0 to length + 3 afterwards, as far as it has them.
    pub page_after: Vec<u8>,
}

/// What is given to assembling with a scratch and what it must answer.
#[derive(Clone, Debug)]
pub struct SmallCase {
    /// Book and run, and the answer.
    pub assemble: AssembleCase,
    /// What the lent buffers hold before the call.
    pub scratch: Vec<u64>,
    pub plan: Vec<u8>,
    pub legs: Vec<u8>,
    /// On code 1 the scratch's entries 0 to 7 afterwards; on every other code none.
    pub scratch_after: Vec<u64>,
}

/// The constant tables of the devices.
#[derive(Clone, Debug)]
pub struct Masks {
    pub ridge: [u64; 1024],
    pub portable: [u64; 384],
}

/// Each line a mask: the ridge repeater's by entry, then the portable relay's.
pub fn masks() -> Masks {
    let mut masks: Vec<u64> = answers!("tables")
        .lines()
        .map(|line| line.parse().unwrap())
        .collect();
    let portable = masks.split_off(1024);
    Masks {
        ridge: masks.try_into().unwrap(),
        portable: portable.try_into().unwrap(),
    }
}

/// Each case: two-byte lengths of book and run, the book, the run. Each answer: four lines, namely
/// code, place, the two counts and the sum; the plan; the legs, three numbers each; the 33 numbers.
pub fn assemble_cases() -> Vec<AssembleCase> {
    let mut bytes = Bytes(data!("case_vectors/data/cases.bin"));
    let mut lines = answers!("case_vectors").lines();
    let mut cases = Vec::new();
    while !bytes.0.is_empty() {
        cases.push(assemble_case(&mut bytes, &mut lines));
    }
    assert!(lines.next().is_none());
    cases
}

/// One of them.
fn assemble_case<'a>(bytes: &mut Bytes, lines: &mut impl Iterator<Item = &'a str>) -> AssembleCase {
    let (book, run) = (bytes.number(2), bytes.number(2));
    let (book, run) = (bytes.take(book).to_vec(), bytes.take(run).to_vec());
    let head = numbers::<u64>(lines.next());
    let plan = numbers(lines.next());
    let legs = numbers::<u8>(lines.next());
    let fewest = numbers::<u32>(lines.next());
    AssembleCase {
        book,
        run,
        code: head[0],
        place: head[1],
        commands: head[2],
        legs: head[3],
        sum: head[4],
        plan,
        leg_list: legs.chunks(3).map(|leg| leg.try_into().unwrap()).collect(),
        fewest: fewest.try_into().unwrap(),
    }
}

/// Each case: a byte for the lengths of the lent buffers, a two-byte length, the book. Each answer:
/// five lines, namely reading; checking, the units last; then the table's entries 0 to 39, the slots'
/// bytes 0 to 101 and the weights 0 to 31 after checking.
pub fn book_cases() -> Vec<BookCase> {
    let mut bytes = Bytes(data!("book_vectors/data/books.bin"));
    let mut lines = answers!("book_vectors").lines();
    let mut cases = Vec::new();
    while !bytes.0.is_empty() {
        let (table, slots, weights) = match bytes.number(1) {
            0 => (2048, 2176, 32),
            1 => (2047, 2176, 32),
            2 => (2048, 2175, 32),
            3 => (2053, 2181, 37),
            4 => (2048, 2176, 31),
            lent => panic!("lent {lent}"),
        };
        let length = bytes.number(2);
        cases.push(BookCase {
            book: bytes.take(length).to_vec(),
            table: table_before(table),
            slots: slots_before(slots),
            weights: weights_before(weights),
            reading: numbers(lines.next()).try_into().unwrap(),
            checking: numbers(lines.next()).try_into().unwrap(),
            table_after: numbers(lines.next()),
            slots_after: numbers(lines.next()),
            weights_after: numbers(lines.next()),
        });
    }
    assert!(lines.next().is_none());
    cases
}

/// Each case: i (8 bytes), a two-byte length, the book. Each answer: one line.
pub fn forecast_cases() -> Vec<ForecastCase> {
    let mut bytes = Bytes(data!("forecast_vectors/data/forecasts.bin"));
    let mut lines = answers!("forecast_vectors").lines();
    let mut cases = Vec::new();
    while !bytes.0.is_empty() {
        let i = bytes.word();
        let length = bytes.number(2);
        cases.push(ForecastCase {
            book: bytes.take(length).to_vec(),
            i,
            answer: numbers(lines.next()).try_into().unwrap(),
        });
    }
    assert!(lines.next().is_none());
    cases
}

/// Each case: a byte for the length of the lent table, phi and psi (8 bytes each), two-byte lengths of
/// the book and of the forward commands, the book, the forward commands. Each answer: two lines, namely
/// code, place, count and the three commands; the table's entries 0 to 15.
pub fn find_cases() -> Vec<FindCase> {
    let mut bytes = Bytes(data!("find_vectors/data/finds.bin"));
    let mut lines = answers!("find_vectors").lines();
    let mut cases = Vec::new();
    while !bytes.0.is_empty() {
        let table = match bytes.number(1) {
            0 => 2048,
            1 => 2047,
            2 => 2053,
            lent => panic!("lent {lent}"),
        };
        let (phi, psi) = (bytes.word(), bytes.word());
        let (book, forward) = (bytes.number(2), bytes.number(2));
        let (book, forward) = (bytes.take(book).to_vec(), bytes.take(forward).to_vec());
        let head: [u64; 6] = numbers(lines.next()).try_into().unwrap();
        let [code, place, count, commands @ ..] = head;
        cases.push(FindCase {
            book,
            forward,
            phi,
            psi,
            table: table_before(table),
            code,
            place,
            count,
            commands: commands.map(|command| command.try_into().unwrap()),
            table_after: numbers(lines.next()),
        });
    }
    assert!(lines.next().is_none());
    cases
}

/// Each case: n, m, count (8 bytes each), a byte for the lengths of the buffers, the 32 weights, the
/// table's first 48 entries, the first 3 slots; all after them is 0. Each answer: two lines, namely
/// code, place and length; the output's bytes 0 to length + 3.
pub fn write_cases() -> Vec<WriteCase> {
    let mut bytes = Bytes(data!("write_vectors/data/writes.bin"));
    let mut lines = answers!("write_vectors").lines();
    let mut cases = Vec::new();
    while !bytes.0.is_empty() {
        let [n, m, items] = [0; 3].map(|_| bytes.word());
        let (mut out, mut entries, mut slot_bytes, mut weight_count) = (31_178, 2048, 2176, 32);
        match bytes.number(1) {
            0 => {}
            1 => out -= 1,
            2 => entries -= 1,
            3 => slot_bytes -= 1,
            4 => weight_count -= 1,
            lent => panic!("lent {lent}"),
        }
        let mut weights: Vec<u16> = (0..32).map(|_| bytes.number(2) as u16).collect();
        weights.truncate(weight_count);
        let mut table: Vec<u64> = (0..48).map(|_| bytes.word()).collect();
        table.resize(entries, 0);
        let mut slots = bytes.take(102).to_vec();
        slots.resize(slot_bytes, 0);
        let head = numbers::<u64>(lines.next());
        cases.push(WriteCase {
            n,
            m,
            items,
            table,
            slots,
            weights,
            out: vec![90; out],
            code: head[0],
            place: head[1],
            length: head[2],
            out_after: numbers(lines.next()),
        });
    }
    assert!(lines.next().is_none());
    cases
}

/// Each case: a byte for the lengths of the lent buffers, two-byte lengths of book and run, the book,
/// the run. Each answer: code, place, the two counts, the sum and the length; the 33 numbers; the
/// page's lines as they are, one for each leg; the page's bytes length to length + 3.
pub fn page_cases() -> Vec<PageCase> {
    let mut bytes = Bytes(data!("page_vectors/data/pages.bin"));
    let mut lines = answers!("page_vectors").lines();
    let mut cases = Vec::new();
    while !bytes.0.is_empty() {
        // In the order of the byte that says which one is short; 6 says that all are longer.
        let stated = [1312, 256, 96, 2048, 2176, 32];
        let [page, plan, legs, table, slots, weights] = match bytes.number(1) {
            0 => stated,
            6 => stated.map(|length| length + 5),
            short @ (1..=5 | 7) => {
                let short = short.min(6);
                std::array::from_fn(|at| stated[at] - usize::from(at + 1 == short))
            }
            lent => panic!("lent {lent}"),
        };
        let (book, run) = (bytes.number(2), bytes.number(2));
        let (book, run) = (bytes.take(book).to_vec(), bytes.take(run).to_vec());
        let head: [u64; 6] = numbers(lines.next()).try_into().unwrap();
        let fewest = numbers::<u32>(lines.next());
        let mut page_after = Vec::new();
        for _ in 0..head[3] {
            page_after.extend(lines.next().unwrap().bytes());
            page_after.push(b'\n');
        }
        page_after.extend(numbers::<u8>(lines.next()));
        cases.push(PageCase {
            book,
            run,
            table: table_before(table),
            slots: slots_before(slots),
            weights: weights_before(weights),
            plan: vec![201; plan],
            legs: vec![202; legs],
            page: vec![90; page],
            head,
            fewest: fewest.try_into().unwrap(),
            page_after,
        });
    }
    assert!(lines.next().is_none());
    cases
}

/// Each case: a byte for the lengths of the lent buffers, then as for assembling. Each answer: five
/// lines, namely the four of assembling; on code 1 the scratch's entries 0 to 7.
pub fn small_cases() -> Vec<SmallCase> {
    let mut bytes = Bytes(data!("small_vectors/data/small.bin"));
    let mut lines = answers!("small_vectors").lines();
    let mut cases = Vec::new();
    while !bytes.0.is_empty() {
        let (scratch, plan, legs) = match bytes.number(1) {
            0 => (64, 256, 96),
            1 => (63, 256, 96),
            2 => (64, 255, 96),
            3 => (64, 256, 95),
            4 => (69, 261, 101),
            lent => panic!("lent {lent}"),
        };
        cases.push(SmallCase {
            assemble: assemble_case(&mut bytes, &mut lines),
            scratch: table_before(scratch),
            plan: vec![201; plan],
            legs: vec![202; legs],
            scratch_after: numbers(lines.next()),
        });
    }
    assert!(lines.next().is_none());
    cases
}

// What lent buffers of so many elements hold before each call; a scratch holds what a table does.

fn table_before(entries: usize) -> Vec<u64> {
    (1..=entries as u64).collect()
}

fn slots_before(bytes: usize) -> Vec<u8> {
    (0..bytes).map(|byte| (byte % 251) as u8).collect()
}

fn weights_before(weights: usize) -> Vec<u16> {
    (40_000..).take(weights).collect()
}

fn numbers<T: std::str::FromStr<Err = std::num::ParseIntError>>(line: Option<&str>) -> Vec<T> {
    line.unwrap()
        .split_whitespace()
        .map(|number| number.parse().unwrap())
        .collect()
}

struct Bytes<'a>(&'a [u8]);

impl<'a> Bytes<'a> {
    fn take(&mut self, count: usize) -> &'a [u8] {
        let (taken, rest) = self.0.split_at(count);
        self.0 = rest;
        taken
    }

    fn number(&mut self, size: usize) -> usize {
        self.take(size)
            .iter()
            .rev()
            .fold(0, |number, &byte| number << 8 | usize::from(byte))
    }

    fn word(&mut self) -> u64 {
        u64::from_le_bytes(self.take(8).try_into().unwrap())
    }
}
