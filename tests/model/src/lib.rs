//! Document 01, with the requests of document 02 that have landed, as a plain safe program, written
//! from the documents and not from the published machine: load, the stack check, the run, and whether
//! a run lies in the domain in which that machine can be asked. It is slow and simple on purpose: one
//! thing to read beside the documents.

pub mod check;
pub mod domain;
pub mod load;
pub mod machine;
pub mod most;
pub mod number;
pub mod steps;
pub mod table;
pub mod value;

pub use check::{Checked, stack_check};
pub use domain::{Judged, Outside, judge};
pub use load::{Refusal, load};
pub use machine::{Answer, run};

/// The runner's budget of instructions.
pub const BUDGET: u64 = 1_000_000;
/// The runner's room for a coded result, in bytes.
pub const ROOM: usize = 4096;

/// The runner's line for an image, without its line feed: what document 01 says the runner prints.
pub fn line(bytes: &[u8]) -> String {
    match load(bytes) {
        Err(refusal) => refusal.to_string(),
        Ok(image) => run(&image, BUDGET, ROOM).to_string(),
    }
}
