//! The domain: the runs for which the published machine has an answer to compare. It is left where
//! that machine panics or reads outside its vectors, where an unknown instruction begins, where a
//! Loop goes before offset 0, and at 45, 46 and 47; and where an instruction begins that a request of
//! document 02 has changed, on operands for which it has. One thing is added: a run in which that
//! machine would walk over more nodes than anyone can wait for.

use crate::machine::{Answer, run_judged};
use crate::value::{Block, Shape, Value};
use image::{Constant, Image};
use std::collections::HashMap;
use std::fmt;
use std::rc::Rc;

/// Why a run lies outside the domain.
#[derive(Debug, Clone, Copy, PartialEq, Eq)]
pub enum Outside {
    UnknownInstruction,
    OperandsCut,
    /// two operands taken without a test
    OperandsMissing,
    /// too few operands for a Call
    CalleeMissing,
    /// a constant read without a test
    ConstantMissing,
    /// a constant whose index is tested by a panic
    ConstantPanics,
    LoopBeforeStart,
    LocalNotLive,
    /// a UInt is cast (document 02, E1)
    UIntCast,
    /// the least number of a kind is negated (document 02, E5)
    LeastNegated,
    Most,
    Budget,
    Room,
    /// more nodes to compare or to print than can be waited for
    TooLong,
}

/// A run and whether it lies in the domain.
#[derive(Debug, Clone, PartialEq, Eq)]
pub struct Judged {
    pub answer: Answer,
    /// none inside the domain
    pub outside: Option<Outside>,
    /// which instructions began: bit n for instruction n
    pub met: u64,
}

/// The most pairs of nodes that the published machine is let compare in a run: under a second.
pub const MOST_COMPARED: u64 = 100_000_000;
/// The most nodes that it is let print into an error's message: some tens of megabytes.
pub const MOST_PRINTED: u64 = 1_000_000;

/// Runs an image that loads and judges the run.
pub fn judge(image: &Image, budget: u64, room: usize) -> Judged {
    run_judged(image, budget, room)
}

impl Outside {
    /// Whether a request of document 02 departs from the published machine there.
    pub fn by_request(self) -> bool {
        matches!(self, Outside::UIntCast | Outside::LeastNegated)
    }

    pub(crate) fn by_walk(walked: u64) -> Option<Outside> {
        (walked > MOST_COMPARED).then_some(Outside::TooLong)
    }

    pub(crate) fn by_print(printed: u64) -> Option<Outside> {
        (printed > MOST_PRINTED).then_some(Outside::TooLong)
    }
}

impl fmt::Display for Outside {
    fn fmt(&self, f: &mut fmt::Formatter<'_>) -> fmt::Result {
        f.write_str(match self {
            Outside::UnknownInstruction => "unknown instruction",
            Outside::OperandsCut => "the Rust reads outside its code",
            Outside::OperandsMissing => "the Rust reads outside its operands",
            Outside::CalleeMissing => "the Rust panics at a missing callee",
            Outside::ConstantMissing => "the Rust reads outside its constants",
            Outside::ConstantPanics => "the Rust panics at a missing constant",
            Outside::LoopBeforeStart => "a Loop goes before offset 0",
            Outside::LocalNotLive => "the Rust panics at a local slot that is not live",
            Outside::UIntCast => "a UInt is cast, which the Rust does not do",
            Outside::LeastNegated => "the least of a kind is negated, which wraps in the Rust",
            Outside::Most => "a most is passed",
            Outside::Budget => "the budget is used up",
            Outside::Room => "the result is too long",
            Outside::TooLong => "the Rust walks over too many nodes",
        })
    }
}

/// How many nodes the published machine prints of a value. An error's message shows its operands
/// whole, and a function with its chunk, whose constants may be functions again: what is small in
/// memory may be without end in print.
pub struct Print<'a> {
    image: &'a Image,
    /// in the short way a function or closure is its name alone
    short: bool,
    blocks: HashMap<*const Block, u64>,
    chunks: HashMap<u16, u64>,
}

impl<'a> Print<'a> {
    pub fn new(image: &'a Image, short: bool) -> Self {
        Print {
            image,
            short,
            blocks: HashMap::new(),
            chunks: HashMap::new(),
        }
    }

    pub fn value(&mut self, value: &Value) -> u64 {
        match value {
            Value::Function(chunk) => self.function(*chunk),
            Value::Block(block) => self.block(block),
            _ => 1,
        }
    }

    fn function(&mut self, number: u16) -> u64 {
        if self.short {
            return 1;
        }
        if let Some(known) = self.chunks.get(&number) {
            return *known;
        }
        let chunk = &self.image.chunks[number as usize];
        // Every code byte is printed, and its span.
        let mut nodes = 1 + 2 * chunk.code.len() as u64;
        for constant in &chunk.constants {
            let more = match constant {
                Constant::Function(inner) => self.function(*inner),
                _ => 1,
            };
            nodes = nodes.saturating_add(more);
        }
        self.chunks.insert(number, nodes);
        nodes
    }

    fn block(&mut self, block: &Rc<Block>) -> u64 {
        if let Some(known) = self.blocks.get(&Rc::as_ptr(block)) {
            return *known;
        }
        let mut nodes = 1_u64;
        if let Shape::Closure { chunk, .. } = block.shape {
            if self.short {
                return 1;
            }
            nodes = nodes.saturating_add(self.function(chunk));
        }
        for part in &block.parts {
            nodes = nodes.saturating_add(self.value(part));
        }
        self.blocks.insert(Rc::as_ptr(block), nodes);
        nodes
    }
}
