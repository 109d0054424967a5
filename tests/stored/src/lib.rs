//! The stored lists: which images are in them, and how they are written and read; and the example
//! sheets.

pub mod replay;
mod select;
pub mod sheets;
mod text;

pub use select::{checks, damaged, outside, runs};
pub use text::{Entry, entries, written};

use std::path::PathBuf;

/// The stored runs, in this package's folder.
pub const CASES: &str = "cases.txt";
/// The stored runs outside the domain.
pub const OUTSIDE: &str = "outside.txt";
/// The stored images for the stack check.
pub const CHECKS: &str = "checks.txt";
/// The stored images that don't load.
pub const DAMAGED: &str = "damaged.txt";

/// The path of a list, from the folder that cargo gives.
pub fn path(list: &str) -> PathBuf {
    PathBuf::from(env!("CARGO_MANIFEST_DIR")).join(list)
}

/// The checker's line for an image, by the model.
pub fn checked(bytes: &[u8]) -> String {
    match model::load(bytes) {
        Err(refusal) => refusal.to_string(),
        Ok(image) => match model::stack_check(&image) {
            model::Checked::Pass => "pass".to_string(),
            model::Checked::Fault {
                number,
                chunk,
                offset,
            } => format!("fault {number} {chunk:04} {offset:04}"),
        },
    }
}

/// A list whose answers are the model's: its name, its images, and what answers for one.
pub type ByModel = (&'static str, Vec<Vec<u8>>, fn(&[u8]) -> String);

/// All such lists.
pub fn by_model() -> [ByModel; 3] {
    [
        (OUTSIDE, outside(), model::line),
        (DAMAGED, damaged(), model::line),
        (CHECKS, checks(), checked),
    ]
}
