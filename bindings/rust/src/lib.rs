//! The proved machine: check and run of the crate `rl_vm` as safe functions of Rust, and the values that
//! result bytes stand for.
//!
//! `tests/archive` proves the machine and writes the archive that this package links. [`check`] and
//! [`run`] keep their work memory with the thread; a [`Machine`] owns its own; [`check_in`] and [`run_in`]
//! work on slices that the caller lends, and allocate nothing.
#![deny(unsafe_code)]

#[macro_use]
mod slices;

mod decode;
pub mod least;
#[allow(unsafe_code)]
mod linked;

pub use decode::{DecodeError, NESTING, Value, decode};
pub use linked::{CheckWork, RunWork};

use linked::{CheckMemory, RunMemory};
use std::cell::RefCell;

/// What a run answers. The numbers are document 01's (docs/OPERATIONS.md).
#[derive(Debug, Clone, Copy, PartialEq, Eq)]
pub enum RunAnswer {
    /// the image does not load; the line from 1, or 0 where no line is to blame
    Refused { number: usize, line: usize },
    /// a value after so many instructions: its coded bytes are the first `length` of the result slice
    Value { count: usize, length: usize },
    /// a stop after so many instructions, at this place
    Stop {
        number: usize,
        count: usize,
        chunk: usize,
        offset: usize,
    },
}

/// What a check answers. The numbers are document 01's (docs/OPERATIONS.md).
#[derive(Debug, Clone, Copy, PartialEq, Eq)]
pub enum CheckAnswer {
    /// the image does not load; the line from 1, or 0 where no line is to blame
    Refused { number: usize, line: usize },
    /// no run of this image stops with 30, 31, 32, 33 or 36, whatever its budget
    Pass,
    /// a fault of the stack check, at this place
    Fault {
        number: usize,
        chunk: usize,
        offset: usize,
    },
}

/// Loads the image and checks it, on lent memory.
pub fn check_in(work: CheckWork<'_>, image: &[u8]) -> CheckAnswer {
    let (number, [line, chunk, offset]) = work.call(image);
    match number {
        0 => CheckAnswer::Pass,
        1..=9 => CheckAnswer::Refused { number, line },
        _ => CheckAnswer::Fault {
            number,
            chunk,
            offset,
        },
    }
}

/// Loads the image and runs it with a budget of instructions, on lent memory. Only a value writes
/// `result`, its first bytes.
pub fn run_in(work: RunWork<'_>, image: &[u8], budget: usize, result: &mut [u8]) -> RunAnswer {
    let (number, [count, length, line, chunk, offset]) = work.call(image, budget, result);
    match number {
        0 => RunAnswer::Value { count, length },
        1..=9 => RunAnswer::Refused { number, line },
        _ => RunAnswer::Stop {
            number,
            count,
            chunk,
            offset,
        },
    }
}

/// The machine with the work memory of both operations, [`CheckWork::BYTES`] and [`RunWork::BYTES`].
pub struct Machine {
    for_check: CheckMemory,
    for_run: RunMemory,
}

impl Default for Machine {
    fn default() -> Machine {
        Machine::new()
    }
}

impl Machine {
    pub fn new() -> Machine {
        Machine {
            for_check: CheckMemory::new(),
            for_run: RunMemory::new(),
        }
    }

    /// Loads the image and checks it.
    pub fn check(&mut self, image: &[u8]) -> CheckAnswer {
        check_in(self.for_check.lend(), image)
    }

    /// Loads the image and runs it with a budget of instructions. Only a value writes `result`, its
    /// first bytes.
    pub fn run(&mut self, image: &[u8], budget: usize, result: &mut [u8]) -> RunAnswer {
        run_in(self.for_run.lend(), image, budget, result)
    }
}

thread_local! {
    static MACHINE: RefCell<Machine> = RefCell::new(Machine::new());
}

/// Loads the image and checks it.
pub fn check(image: &[u8]) -> CheckAnswer {
    MACHINE.with_borrow_mut(|machine| machine.check(image))
}

/// Loads the image and runs it with a budget of instructions. Only a value writes `result`, its first
/// bytes.
pub fn run(image: &[u8], budget: usize, result: &mut [u8]) -> RunAnswer {
    MACHINE.with_borrow_mut(|machine| machine.run(image, budget, result))
}

/// The README's example is compiled and run with the tests.
#[cfg(doctest)]
#[doc = include_str!("../README.md")]
struct Readme;
