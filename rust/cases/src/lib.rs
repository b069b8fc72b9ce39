//! Cases for programs of docs/FORMAT.md: the answers of a second
//! program (`vectors`), random inputs that one seed makes again (`random`),
//! what a program answers to them (`answers`), and books for measuring (`books`).

#![forbid(unsafe_code)]

pub mod answers;
pub mod books;
pub mod device;
pub mod random;
pub mod rng;
pub mod vectors;

pub use answers::After;
pub use books::{
    branching_book, branching_run, grown_book, largest_book, largest_run, q5_run, q_book,
    ridge_book, ridge_run,
};
pub use random::{find_input, input, number_from_env, FindInput, Input};
pub use vectors::{
    assemble_cases, book_cases, find_cases, forecast_cases, masks, page_cases, small_cases,
    write_cases,
};
