//! The calls of `libplanner.a`, with numbers and slices of any length.
//!
//! `include/rollback.h` says of each what it takes, its codes, what it leaves in each buffer and how
//! much stack it needs. [`Fault::new`](crate::Fault::new) and
//! [`WriteFault::new`](crate::WriteFault::new) put a code into words. Needs no `std`; the archive
//! takes `memcpy` and `memset` from whoever links it.
#![allow(unsafe_code)]

/// Entries of a lent table.
pub const TABLE_LEN: usize = 2_048;
/// Bytes of lent slots.
pub const SLOTS_LEN: usize = 2_176;
/// Bytes of a slot.
pub const SLOT_LEN: usize = 34;
/// Elements of lent weights.
pub const WEIGHTS_LEN: usize = 32;
/// Elements of a lent scratch.
pub const SCRATCH_LEN: usize = 64;
/// Bytes of a lent plan.
pub const PLAN_LEN: usize = 256;
/// Bytes of lent legs.
pub const LEGS_LEN: usize = 96;
/// Lent legs as structs.
pub const LEG_STRUCTS_LEN: usize = 32;
/// Bytes of a lent page.
pub const PAGE_LEN: usize = 1_312;
/// Bytes of a line of a page, its newline included.
pub const PAGE_LINE_LEN: usize = 41;
/// Bytes of writing's lent output.
pub const OUT_LEN: usize = 31_178;
/// Bytes of the largest book that a call takes.
pub const BOOK_LEN: usize = 31_178;
/// Bytes of the largest run.
pub const RUN_LEN: usize = 301;
/// Points of the largest run.
pub const POINTS_LEN: usize = 33;
/// Commands of the longest reverse that finding gives.
pub const FOUND_LEN: usize = 3;

/// What reading answers.
#[repr(C)]
#[derive(Clone, Copy, Debug, PartialEq, Eq)]
pub struct Reading {
    /// 0, or why the book was refused.
    pub code: u64,
    /// Where.
    pub place: u64,
    /// States.
    pub n: u64,
    /// Commands.
    pub m: u64,
    /// Items.
    pub items: u64,
}

/// What checking answers.
#[repr(C)]
#[derive(Clone, Copy, Debug, PartialEq, Eq)]
pub struct Checking {
    /// 0, or why the book was refused.
    pub code: u64,
    /// Where.
    pub place: u64,
    /// States.
    pub n: u64,
    /// Commands.
    pub m: u64,
    /// Items.
    pub items: u64,
    /// The units made, with 8 and 12 too: a unit is one command applied to one set of states.
    pub units: u64,
}

/// What a forecast answers.
#[repr(C)]
#[derive(Clone, Copy, Debug, PartialEq, Eq)]
pub struct Forecasted {
    /// 0, or why there is no forecast.
    pub code: u64,
    /// Where.
    pub place: u64,
    /// The units of checking an accepted book; checking never makes more.
    pub units: u64,
    /// No plan for a run of i commands has more commands.
    pub plan_bytes: u64,
    /// No plan for a run of i commands has more legs.
    pub legs: u64,
}

/// What finding answers.
#[repr(C)]
#[derive(Clone, Copy, Debug, PartialEq, Eq)]
pub struct Found {
    /// 0, or why there is no reverse.
    pub code: u64,
    /// Where.
    pub place: u64,
    /// Commands in the reverse.
    pub count: u64,
    /// The commands, in order. Those not used are 0, all of them on a refusal.
    pub commands: [u8; FOUND_LEN],
}

/// What assembling answers.
#[repr(C)]
#[derive(Clone, Copy, Debug, PartialEq, Eq)]
pub struct Assembly {
    /// 0, or why there is no plan.
    pub code: u64,
    /// Where.
    pub place: u64,
    /// Commands in the plan.
    pub commands: u64,
    /// Legs of the plan.
    pub legs: u64,
    /// The sum of the weights of the plan's commands.
    pub sum: u64,
    /// The least sum of a chain from each point down to 0, or [`NONE`](crate::NONE).
    pub fewest: [u32; POINTS_LEN],
}

/// What the page answers.
#[repr(C)]
#[derive(Clone, Copy, Debug, PartialEq, Eq)]
pub struct Paged {
    /// What assembling answers.
    pub assembly: Assembly,
    /// Bytes of the page's text: 41 for each leg, 0 on a refusal.
    pub length: u64,
}

impl Paged {
    /// The text in the page that the call was lent: a line for each leg, none on a refusal. `None`
    /// for a page that is not the one: too short, or not text.
    #[must_use]
    pub fn text<'a>(&self, page: &'a [u8]) -> Option<&'a str> {
        let length = usize::try_from(self.length).ok()?;
        core::str::from_utf8(page.get(..length)?).ok()
    }
}

/// What writing answers.
#[repr(C)]
#[derive(Clone, Copy, Debug, PartialEq, Eq)]
pub struct Writing {
    /// 0, or why nothing was written.
    pub code: u64,
    /// Where.
    pub place: u64,
    /// Bytes of the book.
    pub length: u64,
}

/// What a lookup in a device's table answers.
#[repr(C)]
#[derive(Clone, Copy, Debug, PartialEq, Eq)]
pub struct Lookup {
    /// 0, or 5 for a state or command that the device doesn't have.
    pub code: u64,
    /// 0.
    pub place: u64,
    /// The outcomes.
    pub mask: u64,
}

/// One leg of a plan: an item, and the points of the run between which it leads back.
#[repr(C)]
#[derive(Clone, Copy, Debug, Default, PartialEq, Eq)]
pub struct Leg {
    /// The item's number.
    pub item: u8,
    /// The point that it leads from.
    pub upper: u8,
    /// The point that it leads to.
    pub lower: u8,
}

/// The archive's names, as in `include/rollback.h`.
#[rustfmt::skip]
mod sys {
    use super::{Assembly, Checking, Forecasted, Found, Leg, Lookup, Paged, Reading, Writing};

    extern "C" {
        pub fn rollback_read(
            book: *const u8, book_len: usize,
            table: *mut u64, table_len: usize,
            slots: *mut u8, slots_len: usize,
            weights: *mut u16, weights_len: usize,
        ) -> Reading;
        pub fn rollback_check(
            book: *const u8, book_len: usize,
            table: *mut u64, table_len: usize,
            slots: *mut u8, slots_len: usize,
            weights: *mut u16, weights_len: usize,
        ) -> Checking;
        pub fn rollback_forecast(book: *const u8, book_len: usize, i: u64) -> Forecasted;
        pub fn rollback_find(
            book: *const u8, book_len: usize,
            forward: *const u8, forward_len: usize,
            phi: u64, psi: u64,
            table: *mut u64, table_len: usize,
        ) -> Found;
        pub fn rollback_assemble(
            book: *const u8, book_len: usize,
            run: *const u8, run_len: usize,
            table: *mut u64, table_len: usize,
            slots: *mut u8, slots_len: usize,
            weights: *mut u16, weights_len: usize,
            plan: *mut u8, plan_len: usize,
            legs: *mut u8, legs_len: usize,
        ) -> Assembly;
        pub fn rollback_assemble_legs(
            book: *const u8, book_len: usize,
            run: *const u8, run_len: usize,
            table: *mut u64, table_len: usize,
            slots: *mut u8, slots_len: usize,
            weights: *mut u16, weights_len: usize,
            plan: *mut u8, plan_len: usize,
            legs: *mut Leg, legs_len: usize,
        ) -> Assembly;
        pub fn rollback_assemble_small(
            book: *const u8, book_len: usize,
            run: *const u8, run_len: usize,
            scratch: *mut u64, scratch_len: usize,
            plan: *mut u8, plan_len: usize,
            legs: *mut u8, legs_len: usize,
        ) -> Assembly;
        pub fn rollback_page(
            book: *const u8, book_len: usize,
            run: *const u8, run_len: usize,
            table: *mut u64, table_len: usize,
            slots: *mut u8, slots_len: usize,
            weights: *mut u16, weights_len: usize,
            plan: *mut u8, plan_len: usize,
            legs: *mut u8, legs_len: usize,
            page: *mut u8, page_len: usize,
        ) -> Paged;
        pub fn rollback_write(
            n: u64, m: u64, items: u64,
            table: *const u64, table_len: usize,
            slots: *const u8, slots_len: usize,
            weights: *const u16, weights_len: usize,
            out: *mut u8, out_len: usize,
        ) -> Writing;
        pub fn rollback_ridge(state: u64, command: u64) -> Lookup;
        pub fn rollback_portable(state: u64, command: u64) -> Lookup;
    }
}

// SAFETY, of every call below: the header asks for true lengths, for written buffers that overlap
// nothing and that nobody else uses meanwhile, and for aligned table, scratch and weights. Slices
// have all of it by their types. Every bit pattern is a value of each result and of Leg.

/// Reads a book. Codes 0 to 7, 13.
#[must_use]
#[rustfmt::skip]
pub fn read(book: &[u8], table: &mut [u64], slots: &mut [u8], weights: &mut [u16]) -> Reading {
    unsafe {
        sys::rollback_read(
            book.as_ptr(), book.len(),
            table.as_mut_ptr(), table.len(),
            slots.as_mut_ptr(), slots.len(),
            weights.as_mut_ptr(), weights.len(),
        )
    }
}

/// Reads a book and checks its items. Codes 0 to 8, 12, 13.
#[must_use]
#[rustfmt::skip]
pub fn check(book: &[u8], table: &mut [u64], slots: &mut [u8], weights: &mut [u16]) -> Checking {
    unsafe {
        sys::rollback_check(
            book.as_ptr(), book.len(),
            table.as_mut_ptr(), table.len(),
            slots.as_mut_ptr(), slots.len(),
            weights.as_mut_ptr(), weights.len(),
        )
    }
}

/// Forecasts how much checking a book will take, and how long a plan for a run of i commands can be.
/// Codes 0, 2 to 7, 9, 13.
#[must_use]
pub fn forecast(book: &[u8], i: u64) -> Forecasted {
    unsafe { sys::rollback_forecast(book.as_ptr(), book.len(), i) }
}

/// Checks a book and finds the reverse of at most 3 commands for an item with these forward commands
/// and masks. Codes 0 to 8, 12 to 15.
#[must_use]
#[rustfmt::skip]
pub fn find(book: &[u8], forward: &[u8], phi: u64, psi: u64, table: &mut [u64]) -> Found {
    unsafe {
        sys::rollback_find(
            book.as_ptr(), book.len(),
            forward.as_ptr(), forward.len(),
            phi, psi,
            table.as_mut_ptr(), table.len(),
        )
    }
}

/// Checks a book and assembles the plan that undoes a run, its legs as bytes. Codes 0 to 13.
#[must_use]
#[rustfmt::skip]
pub fn assemble(
    book: &[u8],
    run: &[u8],
    table: &mut [u64],
    slots: &mut [u8],
    weights: &mut [u16],
    plan: &mut [u8],
    legs: &mut [u8],
) -> Assembly {
    unsafe {
        sys::rollback_assemble(
            book.as_ptr(), book.len(),
            run.as_ptr(), run.len(),
            table.as_mut_ptr(), table.len(),
            slots.as_mut_ptr(), slots.len(),
            weights.as_mut_ptr(), weights.len(),
            plan.as_mut_ptr(), plan.len(),
            legs.as_mut_ptr(), legs.len(),
        )
    }
}

/// [`assemble`] with the legs as structs.
#[must_use]
#[rustfmt::skip]
pub fn assemble_legs(
    book: &[u8],
    run: &[u8],
    table: &mut [u64],
    slots: &mut [u8],
    weights: &mut [u16],
    plan: &mut [u8],
    legs: &mut [Leg],
) -> Assembly {
    unsafe {
        sys::rollback_assemble_legs(
            book.as_ptr(), book.len(),
            run.as_ptr(), run.len(),
            table.as_mut_ptr(), table.len(),
            slots.as_mut_ptr(), slots.len(),
            weights.as_mut_ptr(), weights.len(),
            plan.as_mut_ptr(), plan.len(),
            legs.as_mut_ptr(), legs.len(),
        )
    }
}

/// [`assemble`] with a scratch in place of table, slots and weights: result, plan and legs are the
/// same, and it may take longer. Codes 0 to 13. Anything may stand in the scratch's 64 masks afterwards;
/// on 1 it stays as it was.
#[must_use]
#[rustfmt::skip]
pub fn assemble_small(
    book: &[u8],
    run: &[u8],
    scratch: &mut [u64],
    plan: &mut [u8],
    legs: &mut [u8],
) -> Assembly {
    unsafe {
        sys::rollback_assemble_small(
            book.as_ptr(), book.len(),
            run.as_ptr(), run.len(),
            scratch.as_mut_ptr(), scratch.len(),
            plan.as_mut_ptr(), plan.len(),
            legs.as_mut_ptr(), legs.len(),
        )
    }
}

/// [`assemble`], and the plan on paper: a line for each leg, which [`Paged::text`] gives. Codes 0 to 13.
#[must_use]
#[allow(clippy::too_many_arguments)] // those of the header
#[rustfmt::skip]
pub fn page(
    book: &[u8],
    run: &[u8],
    table: &mut [u64],
    slots: &mut [u8],
    weights: &mut [u16],
    plan: &mut [u8],
    legs: &mut [u8],
    page: &mut [u8],
) -> Paged {
    unsafe {
        sys::rollback_page(
            book.as_ptr(), book.len(),
            run.as_ptr(), run.len(),
            table.as_mut_ptr(), table.len(),
            slots.as_mut_ptr(), slots.len(),
            weights.as_mut_ptr(), weights.len(),
            plan.as_mut_ptr(), plan.len(),
            legs.as_mut_ptr(), legs.len(),
            page.as_mut_ptr(), page.len(),
        )
    }
}

/// Writes the book of a table, slots and weights. Codes 0, 1, 5, 7.
#[must_use]
#[rustfmt::skip]
pub fn write(
    n: u64,
    m: u64,
    items: u64,
    table: &[u64],
    slots: &[u8],
    weights: &[u16],
    out: &mut [u8],
) -> Writing {
    unsafe {
        sys::rollback_write(
            n, m, items,
            table.as_ptr(), table.len(),
            slots.as_ptr(), slots.len(),
            weights.as_ptr(), weights.len(),
            out.as_mut_ptr(), out.len(),
        )
    }
}

/// Looks up the ridge repeater's table. Codes 0, 5.
#[must_use]
pub fn ridge(state: u64, command: u64) -> Lookup {
    unsafe { sys::rollback_ridge(state, command) }
}

/// Looks up the portable relay's table. Codes 0, 5.
#[must_use]
pub fn portable(state: u64, command: u64) -> Lookup {
    unsafe { sys::rollback_portable(state, command) }
}
