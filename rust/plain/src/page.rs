//! A plan on paper: "one line per leg, 40 characters and a newline".

use crate::assemble::{as_bytes, assemble_into};
use crate::slot::{self, Slot};
use crate::{Lent, Paged, PLAN, RUN};

/// Bytes of a line, its newline included.
const LINE: usize = 41;
/// Bytes of a lent page.
const PAGE: usize = RUN * LINE;

/// Assembles the plan and lays it out; the legs are bytes, three for each.
#[allow(clippy::too_many_arguments)] // the lent buffers
pub fn page(
    book: &[u8],
    run: &[u8],
    table: &mut [u64],
    slots: &mut [u8],
    weights: &mut [u16],
    plan: &mut [u8],
    legs: &mut [u8],
    page: &mut [u8],
) -> Paged {
    let long_enough = plan.len() >= PLAN && legs.len() >= 3 * RUN && page.len() >= PAGE;
    let lent = Lent {
        table,
        slots: &mut *slots,
        weights,
    };
    let assembly = assemble_into(book, run, lent, plan, long_enough, as_bytes(legs));
    // No legs on a refusal.
    let count = assembly.legs as usize;
    let legs = &legs.as_chunks().0[..count];
    let slots = slots.as_chunks().0;
    for (number, (to, leg)) in (1..).zip(page.as_chunks_mut().0.iter_mut().zip(legs)) {
        *to = line(number, leg, &slots[usize::from(leg[0])]);
    }
    Paged {
        assembly,
        length: (LINE * count) as u64,
    }
}

/// "Right-aligned, padded with spaces: leg number from 1 (3 wide), upper point
/// (3), lower point (3), item number (4), number of reverse commands (3), then
/// up to 8 commands (3 each), blank where there are fewer."
fn line(number: u8, &[item, upper, lower]: &[u8; 3], slot: &Slot) -> [u8; LINE] {
    let reverse = slot::reverse(slot);
    let fields = [
        (3, number),
        (3, upper),
        (3, lower),
        (4, item),
        (3, reverse.len() as u8),
    ];
    let commands = reverse.iter().map(|&command| (3, command));
    let mut line = [b' '; LINE];
    let mut at = 0;
    for (width, number) in fields.into_iter().chain(commands) {
        put(&mut line[at..at + width], number);
        at += width;
    }
    line[LINE - 1] = b'\n';
    line
}

/// The digits of a number at the end of a field.
fn put(field: &mut [u8], number: u8) {
    let mut rest = number;
    for place in field.iter_mut().rev() {
        *place = b'0' + rest % 10;
        rest /= 10;
        if rest == 0 {
            break;
        }
    }
}
