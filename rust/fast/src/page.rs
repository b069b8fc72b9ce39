//! A plan on paper: a line for each leg.

use crate::assemble::assemble_into;
use crate::item::{Slot, SLOT};
use crate::read::Lent;
use crate::{Paged, RUN};

/// Bytes of a line, its newline included.
const LINE: usize = 41;

/// The numbers below 64, two wide.
const NUMBERS: [[u8; 2]; 64] = {
    let mut numbers = [[b' '; 2]; 64];
    let mut number = 0;
    while number < 64 {
        if number >= 10 {
            numbers[number][0] = b'0' + number as u8 / 10;
        }
        numbers[number][1] = b'0' + number as u8 % 10;
        number += 1;
    }
    numbers
};

/// Assembles the plan and lays it out; the legs are bytes, three for each.
#[allow(clippy::too_many_arguments)] // the lent buffers
pub fn page(
    book: &[u8],
    run: &[u8],
    table: &mut [u64],
    slots: &mut [u8],
    weights: &mut [u16],
    plan: &mut [u8],
    legs: &mut [u8],
    page: &mut [u8],
) -> Paged {
    let lent = Lent::new(table, &mut *slots, weights);
    let mut page = page.as_chunks_mut::<LINE>().0.first_chunk_mut::<RUN>();
    let all_legs = legs.as_chunks_mut().0.first_chunk_mut();
    let all_legs = all_legs.filter(|_| page.is_some());
    let assembly = assemble_into(book, run, lent, plan, all_legs, |leg| {
        [leg.item, leg.upper, leg.lower]
    });
    // No legs on a refusal.
    let count = assembly.legs as usize;
    if let Some(page) = &mut page {
        let (legs, slots) = (legs.as_chunks().0, slots.as_chunks::<SLOT>().0);
        for (number, (to, leg)) in (1..).zip(page.iter_mut().zip(&legs[..count])) {
            *to = line(number, leg, &slots[usize::from(leg[0])]);
        }
    }
    Paged {
        assembly,
        length: (LINE * count) as u64,
    }
}

#[inline]
fn line(number: u8, &[item, upper, lower]: &[u8; 3], slot: &Slot) -> [u8; LINE] {
    let mut line = [b' '; LINE];
    line[LINE - 1] = b'\n';
    let mut put = |at: usize, number: u8| {
        line[at..at + 2].copy_from_slice(&NUMBERS[usize::from(number & 63)]);
    };
    put(1, number);
    put(4, upper);
    put(7, lower);
    put(11, item);
    put(14, slot[1]);
    for (at, &command) in slot[10..10 + usize::from(slot[1])].iter().enumerate() {
        put(17 + 3 * at, command);
    }
    line
}
