//! A book for the ridge repeater, from its first mistake to a plan: ridge [FOLDER]
//!
//! Writes a book of five items, one of them wrong, and the commands' weights; prints the refusal; finds
//! what the wrong item has to send, and repairs it; forecasts the check and makes it; assembles the
//! plan that undoes a run. With FOLDER, leaves there the book and the run as the program takes them
//! (`book.bin`, `run.bin`), and the book before its repair (`wrong.bin`).
//!
//! A state is channel + 4 × power + 16 × mode, each 0 to 3; the modes are standby, relay, beacon,
//! locked. docs/FORMAT.md has the sixteen commands.

use std::error::Error;
use std::path::Path;
use std::{env, fs};

use rollback::{Book, Fault, Item};

const STATES: u64 = 64;
const COMMANDS: u64 = 16;
const ALL: u64 = u64::MAX;
const MODES: [&str; 4] = ["standby", "relay", "beacon", "locked"];
/// Setting a channel takes far more air than setting power.
const WEIGHTS: [u16; 16] = [40, 40, 40, 40, 5, 5, 5, 5, 10, 10, 10, 10, 10, 40, 5, 5];

/// The states with a mode.
fn mode(mode: u64) -> u64 {
    0xFFFF << (16 * mode)
}

/// The states with a channel.
fn channel(channel: u64) -> u64 {
    0x1111_1111_1111_1111 << channel
}

fn command(number: u8) -> String {
    match number {
        0..=3 => format!("channel {number}"),
        4..=7 => format!("power {}", number - 4),
        8..=10 => MODES[usize::from(number) - 8].into(),
        11 => "lock".into(),
        12 => "unlock".into(),
        13 => "any channel".into(),
        14 => "power up".into(),
        _ => "power down".into(),
    }
}

fn commands(numbers: &[u8]) -> String {
    let words = numbers
        .iter()
        .map(|&number| format!("{number} ({})", command(number)));
    words.collect::<Vec<_>>().join(", ")
}

/// A sighting: one state, or nothing heard.
fn heard(sighting: u64) -> String {
    if sighting == ALL {
        return "nothing heard".into();
    }
    let state = sighting.trailing_zeros() as usize;
    let (mode, channel, power) = (MODES[state / 16], state % 4, state / 4 % 4);
    format!("heard {mode}, channel {channel}, power {power}")
}

/// The book's bytes. The moves come from the ridge repeater's own table.
fn book(items: &[(Item, &str)]) -> Result<Vec<u8>, Box<dyn Error>> {
    let mut outcomes = Vec::new();
    for state in 0..STATES {
        for command in 0..COMMANDS {
            outcomes.push(rollback::ridge(state, command).ok_or("no such state or command")?);
        }
    }
    let items: Vec<Item> = items.iter().map(|&(item, _)| item).collect();
    Ok(rollback::write(64, 16, &outcomes, &items, &WEIGHTS)?)
}

fn print_item(number: usize, (item, from): &(Item, &str)) {
    let (forward, reverse) = (commands(item.forward), commands(item.reverse));
    println!("  item {number}: after {forward}, send {reverse}; from {from}");
}

fn main() -> Result<(), Box<dyn Error>> {
    let item = |forward, reverse, psi| Item {
        forward,
        reverse,
        phi: ALL,
        psi,
    };
    let mut items = [
        (item(&[14], &[15], ALL), "any state"),
        (item(&[9], &[8], mode(0)), "standby"),
        (item(&[2], &[1], mode(1) & channel(1)), "relay on channel 1"),
        (item(&[11], &[12], mode(0)), "standby"),
        (item(&[11], &[12, 9], mode(1)), "relay"),
    ];
    println!("The book: the ridge repeater, {STATES} states, {COMMANDS} commands, five items");
    println!(
        "  weights: 40 for a channel (0 to 3, 13), 5 for power (4 to 7, 14, 15), 10 for the others"
    );
    for (number, item) in items.iter().enumerate() {
        print_item(number, item);
    }

    let wrong = book(&items)?;
    match Book::check(&wrong) {
        Err(fault @ Fault::NotReversePlan(_)) => println!("Refused: {fault}"),
        other => return Err(format!("item 2 should be refused: {other:?}").into()),
    }
    println!("  In relay a channel command may not take: after 1 the repeater may still be on 2.");

    // Finding takes a book whose items are all accepted: this one without item 2.
    let others = book(&[items[0], items[1], items[3], items[4]])?;
    let Item {
        forward, phi, psi, ..
    } = items[2].0;
    let found = rollback::find(&others, forward, phi, psi)?;
    println!("Found, in the book without item 2: send {found}, the shortest reverse");
    println!("  To standby, where a channel command takes, and back to relay.");
    items[2].0 = found.item();
    println!("Repaired:");
    print_item(2, &items[2]);
    let repaired = book(&items)?;
    let (sent, sightings) = ([9, 14, 2], [1 << 1, ALL, ALL, ALL]);
    let forecast = rollback::forecast(&repaired, sent.len())?;
    println!(
        "Forecast: {} units of checking; a plan for {} commands sends at most {}, in at most {} legs",
        forecast.units,
        sent.len(),
        forecast.plan_bytes,
        forecast.legs
    );
    let right = Book::check(&repaired)?;
    println!(
        "Accepted: all {} items, after {} units",
        right.items().len(),
        right.units()
    );

    println!("The run:");
    println!("  point 0: {}", heard(sightings[0]));
    for (i, number) in sent.into_iter().enumerate() {
        println!("  sent {number} ({})", command(number));
        println!("  point {}: {}", i + 1, heard(sightings[i + 1]));
    }
    let run = rollback::run(&sent, &sightings)?;
    let plan = right.plan(&run)?;
    println!("The plan, of air time {}:", plan.sum());
    for line in plan.to_string().lines() {
        println!("  {line}");
    }

    if let Some(folder) = env::args_os().nth(1) {
        let folder = Path::new(&folder);
        fs::create_dir_all(folder)?;
        fs::write(folder.join("book.bin"), right.bytes())?;
        fs::write(folder.join("run.bin"), run)?;
        fs::write(folder.join("wrong.bin"), wrong)?;
    }
    Ok(())
}
