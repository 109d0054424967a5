//! The machine as the comparison asks it: every call with its memory and its result held to the rules.

use machine::{Machine, RunAnswer, check_line, run_line};

/// What the result slice holds before a run.
const UNWRITTEN: u8 = 0xEE;
/// What the work memory is filled with now and then before a call.
const BEFORE: [u8; 3] = [0x01, 0xA5, 0xFF];
/// How many calls come between two that find their memory used.
const USED_EVERY: u64 = 8;

/// The machine under comparison, and how often it was asked.
pub struct Subject {
    machine: Machine,
    result: Vec<u8>,
    /// calls of both operations
    pub calls: u64,
    /// those of them that found their memory full of another byte than 0
    pub used: u64,
}

impl Subject {
    pub fn new() -> Subject {
        Subject {
            machine: Machine::new(),
            result: Vec::new(),
            calls: 0,
            used: 0,
        }
    }

    /// No answer may depend on what stood in the memory.
    fn prepare(&mut self) {
        self.calls += 1;
        if self.calls.is_multiple_of(USED_EVERY) {
            self.used += 1;
            self.machine
                .dirty(BEFORE[self.used as usize % BEFORE.len()]);
        }
    }

    /// The runner's line for an image with this budget and this room for the result; with a word on what
    /// the run broke beside it, where it did.
    pub fn run(&mut self, image: &[u8], budget: u64, room: usize) -> String {
        self.prepare();
        self.result.clear();
        self.result.resize(room, UNWRITTEN);
        let answer = self.machine.run(image, budget as usize, &mut self.result);
        let written = match answer {
            RunAnswer::Value { length, .. } => length,
            _ => 0,
        };
        if written > room {
            return format!("{answer:?}, longer than its slice");
        }
        let mut line = run_line(&answer, &self.result);
        if self.result[written..].iter().any(|b| *b != UNWRITTEN) {
            line += ", and the rest of the result slice is changed";
        }
        if !self.machine.is_clean_after_run() {
            line += ", and work memory is not zero";
            self.machine = Machine::new();
        }
        line
    }

    /// The checker's line for an image, with a word on what the check broke, where it did.
    pub fn check(&mut self, image: &[u8]) -> String {
        self.prepare();
        let mut line = check_line(&self.machine.check(image));
        if !self.machine.is_clean_after_check() {
            line += ", and work memory is not zero";
            self.machine = Machine::new();
        }
        line
    }
}
