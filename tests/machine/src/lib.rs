//! The linked machine (bindings/rust) as tests ask it: on work memory of any lengths, with anything in it,
//! that is looked at afterwards; and its answers as the lines of the built programs.

#[macro_use]
#[path = "../../../bindings/rust/src/slices.rs"]
mod slices;

mod memory;

use memory::{CheckMemory, RunMemory};
pub use rl_vm::{CheckAnswer, RunAnswer};

/// The runner's line, without its line feed, where `result` is the slice that the run was lent.
pub fn run_line(answer: &RunAnswer, result: &[u8]) -> String {
    match *answer {
        RunAnswer::Refused { number, line } => format!("refused {number} {line}"),
        RunAnswer::Value { count, length } => {
            let bytes = &result[..length];
            let hex: String = bytes.iter().map(|b| format!("{b:02X}")).collect();
            format!("value {count} {hex}")
        }
        RunAnswer::Stop {
            number,
            count,
            chunk,
            offset,
        } => format!("stop {number} {count} {chunk:04} {offset:04}"),
    }
}

/// The checker's line, without its line feed.
pub fn check_line(answer: &CheckAnswer) -> String {
    match *answer {
        CheckAnswer::Refused { number, line } => format!("refused {number} {line}"),
        CheckAnswer::Pass => "pass".to_string(),
        CheckAnswer::Fault {
            number,
            chunk,
            offset,
        } => format!("fault {number} {chunk:04} {offset:04}"),
    }
}

/// The machine with the work memory of both operations.
pub struct Machine {
    for_run: RunMemory,
    for_check: CheckMemory,
}

impl Default for Machine {
    fn default() -> Machine {
        Machine::new()
    }
}

fn lengths(least: &[(&str, usize)]) -> Vec<usize> {
    least.iter().map(|(_, length)| *length).collect()
}

impl Machine {
    /// The name and the least length of each slice that `run` works on; below it, every image is
    /// refused with 9.
    pub const RUN_LEAST: &[(&str, usize)] = RunMemory::LEAST;
    /// The same for `check`.
    pub const CHECK_LEAST: &[(&str, usize)] = CheckMemory::LEAST;

    /// A machine whose work slices have the least lengths.
    pub fn new() -> Machine {
        Machine::with_lengths(&lengths(Self::RUN_LEAST), &lengths(Self::CHECK_LEAST))
    }

    /// A machine whose work slices have the lengths given, for `run` and for `check`.
    pub fn with_lengths(for_run: &[usize], for_check: &[usize]) -> Machine {
        Machine {
            for_run: RunMemory::of(for_run),
            for_check: CheckMemory::of(for_check),
        }
    }

    /// `run` on this memory.
    pub fn run(&mut self, image: &[u8], budget: usize, result: &mut [u8]) -> RunAnswer {
        rl_vm::run_in(self.for_run.lend(), image, budget, result)
    }

    /// `check` on this memory.
    pub fn check(&mut self, image: &[u8]) -> CheckAnswer {
        rl_vm::check_in(self.for_check.lend(), image)
    }

    /// Whether all memory that `run` was lent is zero, as it has to be after every run.
    pub fn is_clean_after_run(&self) -> bool {
        self.for_run.is_zero()
    }

    /// The same for `check`.
    pub fn is_clean_after_check(&self) -> bool {
        self.for_check.is_zero()
    }

    /// Puts a byte everywhere into the work memory: no answer may depend on what stood there.
    pub fn dirty(&mut self, byte: u8) {
        self.for_run.fill(byte);
        self.for_check.fill(byte);
    }
}
