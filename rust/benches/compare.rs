//! The verified library beside the plain program and the fast one: the time of each call, how checking
//! and finding grow, and the library's stack use. Prints tables.

use std::hint::black_box;
use std::path::Path;
use std::process::{Command, Stdio};
use std::time::{Duration, Instant};
use std::{env, fs, process};

use rollback::calls;
use rollback_cases::device::{book_bytes, Device};
use rollback_cases::{
    branching_book, branching_run, grown_book, largest_book, largest_run, q5_run, q_book,
    ridge_book, ridge_run,
};

/// A batch of calls takes at least this long.
const BATCH: Duration = Duration::from_millis(2);
/// Batches of each contender, in turn.
const SAMPLES: usize = 51;

/// What all are lent.
struct Lent {
    book: Vec<u8>,
    run: Vec<u8>,
    table: Vec<u64>,
    slots: Vec<u8>,
    weights: Vec<u16>,
    plan: Vec<u8>,
    legs: Vec<u8>,
    page: Vec<u8>,
    scratch: Vec<u64>,
    structs: Vec<calls::Leg>,
    /// For the plain program and the fast one.
    rust_structs: Vec<rollback_plain::Leg>,
    out: Vec<u8>,
    /// n, m and items of the book.
    device: [u64; 3],
    sought: Sought,
}

/// What finding is given, and the code and the number of commands that it is to answer.
#[derive(Default)]
struct Sought {
    forward: Vec<u8>,
    phi: u64,
    psi: u64,
    answer: [u64; 2],
}

impl Lent {
    fn new(book: Vec<u8>, run: Vec<u8>) -> Lent {
        let mut table = vec![0; calls::TABLE_LEN];
        let mut slots = vec![0; calls::SLOTS_LEN];
        let mut weights = vec![0; calls::WEIGHTS_LEN];
        let r = calls::check(&book, &mut table, &mut slots, &mut weights);
        assert_eq!(r.code, 0, "the book is accepted");
        Lent {
            book,
            run,
            table,
            slots,
            weights,
            plan: vec![0; calls::PLAN_LEN],
            legs: vec![0; calls::LEGS_LEN],
            page: vec![0; calls::PAGE_LEN],
            scratch: vec![0; calls::SCRATCH_LEN],
            structs: vec![calls::Leg::default(); calls::LEG_STRUCTS_LEN],
            rust_structs: vec![rollback_plain::Leg::default(); calls::LEG_STRUCTS_LEN],
            out: vec![0; calls::OUT_LEN],
            device: [r.n, r.m, r.items],
            sought: Sought::default(),
        }
    }
}

/// Makes a call and gives its code, or 0 where the answer is the one that is expected.
type Make = fn(&mut Lent) -> u64;

/// A call of the library, of the plain program and of the fast one.
struct Call {
    name: &'static str,
    verified: Make,
    plain: Make,
    fast: Make,
}

/// The same call of each, which is `program` in it.
macro_rules! call {
    ($name:literal, $make:expr) => {
        Call {
            name: $name,
            verified: {
                use rollback::calls as program;
                $make
            },
            plain: {
                use rollback_plain as program;
                $make
            },
            fast: {
                use rollback_fast as program;
                $make
            },
        }
    };
}

const CHECK: Call = call!("check", |l| {
    program::check(&l.book, &mut l.table, &mut l.slots, &mut l.weights).code
});

#[rustfmt::skip]
const ASSEMBLE: Call = call!("assemble", |l| program::assemble(
    &l.book, &l.run, &mut l.table, &mut l.slots, &mut l.weights, &mut l.plan, &mut l.legs,
).code);

#[rustfmt::skip]
const CALLS: [Call; 7] = [
    call!("read", |l| {
        program::read(&l.book, &mut l.table, &mut l.slots, &mut l.weights).code
    }),
    CHECK,
    // A forecast fills no buffer: its result is all that it leaves, so all of it is opaque.
    call!("forecast", |l| black_box(program::forecast(&l.book, 32)).code),
    ASSEMBLE,
    Call {
        name: "assemble_legs",
        verified: |l| calls::assemble_legs(
            &l.book, &l.run, &mut l.table, &mut l.slots, &mut l.weights,
            &mut l.plan, &mut l.structs,
        ).code,
        plain: |l| rollback_plain::assemble_legs(
            &l.book, &l.run, &mut l.table, &mut l.slots, &mut l.weights,
            &mut l.plan, &mut l.rust_structs,
        ).code,
        fast: |l| rollback_fast::assemble_legs(
            &l.book, &l.run, &mut l.table, &mut l.slots, &mut l.weights,
            &mut l.plan, &mut l.rust_structs,
        ).code,
    },
    call!("page", |l| program::page(
        &l.book, &l.run, &mut l.table, &mut l.slots, &mut l.weights,
        &mut l.plan, &mut l.legs, &mut l.page,
    ).assembly.code),
    call!("write", |l| {
        let [n, m, items] = l.device;
        program::write(n, m, items, &l.table, &l.slots, &l.weights, &mut l.out).code
    }),
];

const LOOKUPS: [Call; 2] = [
    call!("ridge, all 1,024 lookups", |_| {
        every_entry(64, 16, |s, c| black_box(program::ridge(s, c)).code)
    }),
    call!("portable, all 384 lookups", |_| {
        every_entry(32, 12, |s, c| black_box(program::portable(s, c)).code)
    }),
];

/// Assembling with a scratch, by the library and by the plain program. The plain program goes over all
/// moves for each command, the library looks them up by an index: the ratio compares two ways, not two
/// compilers.
#[rustfmt::skip]
const ASSEMBLE_SMALL: [Make; 2] = [
    |l| calls::assemble_small(
        &l.book, &l.run, &mut l.scratch, &mut l.plan, &mut l.legs,
    ).code,
    |l| rollback_plain::assemble_small(
        &l.book, &l.run, &mut l.scratch, &mut l.plan, &mut l.legs,
    ).code,
];

const FIND: Call = call!("find", |l| {
    let s = &l.sought;
    let r = black_box(program::find(
        &l.book,
        &s.forward,
        s.phi,
        s.psi,
        &mut l.table,
    ));
    u64::from([r.code, r.count] != s.answer)
});

/// 64 states; each command stays in all of them but the last, and leads from there to `from_last`. From
/// the others none leads to the last, so no row brings it back: but each is tried on all other starts
/// first.
fn lost_book(m: usize, from_last: u64) -> Vec<u8> {
    let mut device = Device::empty(64, m);
    for state in 0..64 {
        for command in 0..m {
            let outcomes = if state < 63 { 1 << state } else { from_last };
            device.set(state, command, outcomes);
        }
    }
    book_bytes(&device, &[])
}

/// Each entry looked up. Numbers and result are opaque, so that no program leaves the mask out.
fn every_entry(states: u64, commands: u64, lookup: fn(u64, u64) -> u64) -> u64 {
    (0..states)
        .flat_map(|state| {
            (0..commands).map(move |command| lookup(black_box(state), black_box(command)))
        })
        .sum()
}

/// The time of one batch.
fn batch(call: Make, lent: &mut Lent, calls: u32) -> Duration {
    let start = Instant::now();
    for _ in 0..calls {
        assert_eq!(black_box(call(black_box(lent))), 0);
    }
    start.elapsed()
}

/// So many calls that a batch takes long enough.
fn batch_size(call: Make, lent: &mut Lent) -> u32 {
    let mut calls = 1;
    while batch(call, lent, calls) < BATCH {
        calls *= 2;
    }
    calls
}

/// The times of one call in nanoseconds, sorted.
struct Times(Vec<f64>);

impl Times {
    /// The time that this share of the samples doesn't exceed.
    fn at(&self, share: f64) -> f64 {
        self.0[(share * (self.0.len() - 1) as f64).round() as usize]
    }

    fn shown(&self) -> String {
        let [low, median, high] = [0.1, 0.5, 0.9].map(|share| self.at(share));
        let (unit, name) = match median {
            m if m < 1e3 => (1.0, "ns"),
            m if m < 1e6 => (1e3, "µs"),
            _ => (1e6, "ms"),
        };
        let [low, median, high] = [low, median, high].map(|time| time / unit);
        format!("{median:.2} {name} ({low:.2} to {high:.2})")
    }
}

/// All contenders, batch by batch in turn, each first as often as the others.
fn in_turn<const N: usize>(calls: [Make; N], lent: &mut Lent) -> [Times; N] {
    let sizes = calls.map(|call| batch_size(call, lent));
    let mut times = [const { Vec::new() }; N];
    for sample in 0..SAMPLES {
        for turn in 0..N {
            let which = (sample + turn) % N;
            let time = batch(calls[which], lent, sizes[which]);
            times[which].push(time.as_nanos() as f64 / f64::from(sizes[which]));
        }
    }
    times.map(|mut times| {
        times.sort_by(f64::total_cmp);
        Times(times)
    })
}

/// All three; then a line of a table.
fn compare(call: &Call, lent: &mut Lent, title: &str) {
    let [verified, plain, fast] = in_turn([call.verified, call.plain, call.fast], lent);
    let [to_plain, to_fast] = [&plain, &fast].map(|other| verified.at(0.5) / other.at(0.5));
    println!(
        "| {title} | {} | {} | {to_plain:.2} | {} | {to_fast:.2} |",
        verified.shown(),
        plain.shown(),
        fast.shown()
    );
}

/// Assembling with a scratch beside assembling with a table, and beside the plain program's; then a line
/// of a table.
fn compare_small(lent: &mut Lent, title: &str) {
    let [small, plain] = ASSEMBLE_SMALL;
    let [small, assemble, plain] = in_turn([small, ASSEMBLE.verified, plain], lent);
    let [to_assemble, to_plain] = [&assemble, &plain].map(|other| small.at(0.5) / other.at(0.5));
    println!(
        "| {title} | {} | {} | {to_assemble:.1} | {} | {to_plain:.2} |",
        small.shown(),
        assemble.shown(),
        plain.shown()
    );
}

/// Finding in the books at hand, then where it takes long, by commands and by starts.
fn finding() {
    let sought = |forward: &[u8], phi, psi, answer| Sought {
        forward: forward.to_vec(),
        phi,
        psi,
        answer,
    };
    let compare = |title: &str, book: Vec<u8>, sought: Sought| {
        let mut lent = Lent::new(book, Vec::new());
        lent.sought = sought;
        compare(&FIND, &mut lent, title);
    };
    let (all, relay, none) = (u64::MAX, 0xFFFF_0000, [15, 0]);
    heading("Finding", "book, forward commands, answer");
    let relay_on_1 = relay & 0x2222_2222_2222_2222;
    for (title, forward, psi, answer) in [
        ("11 12 from standby: nothing", &[11, 12][..], 0xFFFF, [0, 0]),
        ("14 from any state: 1 command", &[14], all, [0, 1]),
        ("11 from relay: 2 commands", &[11], relay, [0, 2]),
        ("2 from relay on 1: 3 commands", &[2], relay_on_1, [0, 3]),
        ("14 2 from relay on 1: code 15", &[14, 2], relay_on_1, none),
    ] {
        let title = format!("ridge, {title}");
        compare(&title, ridge_book(), sought(forward, all, psi, answer));
    }
    compare("Q, 2: 1 command", q_book(), sought(&[2], 7, 7, [0, 1]));
    compare("Q, 1: code 15", q_book(), sought(&[1], 7, 7, none));
    let title = "largest, 0 2 4: 3 commands";
    compare(title, largest_book(), sought(&[0, 2, 4], all, all, [0, 3]));
    let (title, no_traps) = ("branching, 0 8 9: 3 commands", 0x7FFF_7FFF_7FFF_7FFF);
    compare(
        title,
        branching_book(),
        sought(&[0, 8, 9], no_traps, all, [0, 3]),
    );
    let title = "lost to all states, 32 commands, 64 starts: code 15";
    compare(title, lost_book(32, all), sought(&[0], all, all, none));

    // State 62 is no start: from 63 each command leads there.
    let lost = |m, others: u32| {
        let psi = 1 << 63 | ((1 << others) - 1);
        (lost_book(m, 1 << 62), sought(&[0], all, psi, none))
    };
    heading("Finding by commands (63 starts, code 15)", "m");
    for m in [4, 8, 16, 32] {
        let (book, sought) = lost(m, 62);
        compare(&m.to_string(), book, sought);
    }
    heading("Finding by starts (m = 32, code 15)", "starts");
    for starts in [1, 4, 16, 32, 63] {
        let (book, sought) = lost(32, starts - 1);
        compare(&starts.to_string(), book, sought);
    }
}

fn heading(title: &str, first: &str) {
    println!("\n## {title}\n");
    println!("| {first} | verified: median (10 % to 90 %) | plain | to plain | fast | to fast |");
    println!("|---|---|---|---|---|---|");
}

fn growth(title: &str, first: &str, sizes: &[usize], book: fn(usize) -> Vec<u8>) {
    heading(title, first);
    for &size in sizes {
        compare(
            &CHECK,
            &mut Lent::new(book(size), Vec::new()),
            &size.to_string(),
        );
    }
}

/// Builds `c/stack.c` with the archive and runs it on these books and runs.
fn stack(books: &[(&str, Vec<u8>, Vec<u8>)]) {
    let folder = env::temp_dir().join(format!("rollback-stack-{}", process::id()));
    fs::create_dir(&folder).unwrap();
    let root = Path::new(env!("CARGO_MANIFEST_DIR")).join("..");
    let program = folder.join("stack");
    let built = Command::new(env::var_os("CC").unwrap_or("cc".into()))
        .args(["-std=c99", "-O2", "-I"])
        .arg(root.join("include"))
        .arg("-o")
        .arg(&program)
        .arg(root.join("c/stack.c"))
        .arg(env!("ROLLBACK_ARCHIVE"))
        .arg("-lpthread")
        .status();
    assert!(built.unwrap().success(), "c/stack.c builds");
    let mut run = Command::new(&program);
    for (number, (_, book, sent)) in books.iter().enumerate() {
        for (bytes, kind) in [(book, "book"), (sent, "run")] {
            let file = folder.join(format!("{number}.{kind}"));
            fs::write(&file, bytes).unwrap();
            run.arg(file);
        }
    }
    let output = run.stderr(Stdio::inherit()).output().unwrap();
    fs::remove_dir_all(&folder).unwrap();
    assert!(output.status.success(), "c/stack.c runs");
    println!("\n## Deepest stack use of each call over these books, in bytes\n");
    println!("| call | bytes |\n|---|---|");
    for line in String::from_utf8(output.stdout).unwrap().lines() {
        println!("| {} |", line.replace(' ', " | "));
    }
}

fn main() {
    let books = [
        ("a, largest", largest_book(), largest_run()),
        ("b, branching", branching_book(), branching_run()),
        ("c, ridge", ridge_book(), ridge_run()),
        ("d, Q", q_book(), q5_run()),
    ];
    println!("Times of one call, from {SAMPLES} batches of each program in turn, all built for");
    println!("release, on the same buffers, which are not cleared between calls.");
    heading(
        "The library, the plain program and the fast one",
        "book, call",
    );
    for (name, book, run) in &books {
        let mut lent = Lent::new(book.clone(), run.clone());
        for call in &CALLS {
            compare(call, &mut lent, &format!("{name}: {}", call.name));
        }
    }
    let mut lent = Lent::new(q_book(), q5_run());
    for call in &LOOKUPS {
        compare(call, &mut lent, call.name);
    }
    println!("\n## Assembling with a scratch\n");
    println!(
        "| book | assemble_small | assemble | to assemble | assemble_small plain | to plain |"
    );
    println!("|---|---|---|---|---|---|");
    for (name, book, run) in &books {
        compare_small(&mut Lent::new(book.clone(), run.clone()), name);
    }
    growth(
        "Checking by states (64 items, k = r = 8)",
        "n",
        &[4, 8, 16, 32, 64],
        |n| grown_book(n, 64, 8, 8),
    );
    growth(
        "Checking by items (n = 64, k = r = 8)",
        "items",
        &[1, 4, 16, 32, 64],
        |items| grown_book(64, items, 8, 8),
    );
    growth(
        "Checking by length (n = 64, 64 items, k = r)",
        "k + r",
        &[2, 4, 8, 12, 16],
        |length| grown_book(64, 64, length / 2, length / 2),
    );
    finding();
    stack(&books);
}
