//! An image's code as the published machine's code. Instructions have the same lengths in both, so
//! every offset stays what it is; an instruction's number changes, and the two bytes of an operand
//! change places.
//!
//! One case needs more. Any byte may be jumped to, so instructions may overlap, and a byte that is an
//! operand's high byte in one and its low byte in another can't be both. Such code is laid out anew,
//! see [`crate::layout`].

use crate::layout;
use image::{INSTRUCTIONS, op};

/// Code of the published machine.
#[derive(Debug, Clone, PartialEq, Eq)]
pub struct Code {
    pub bytes: Vec<u8>,
    /// the offset in the image's code that each byte stands for; none for an instruction that was put
    /// in by the layout and is not to be counted
    pub places: Vec<Option<u16>>,
}

/// The instruction's length, if it is a known one and all its operands are there.
pub(crate) fn length(code: &[u8], at: usize) -> Option<usize> {
    let (_, operands) = INSTRUCTIONS.get(*code.get(at)? as usize)?;
    let length = 1 + 2 * operands;
    (at + length <= code.len()).then_some(length)
}

pub(crate) fn operand(code: &[u8], at: usize) -> usize {
    u16::from_be_bytes([code[at + 1], code[at + 2]]) as usize
}

/// Where a run may stand after the instruction at `at`.
fn next(code: &[u8], at: usize, length: usize) -> Vec<usize> {
    let after = at + length;
    let number = code[at];
    if number == op("Return") {
        vec![]
    } else if number == op("Jump") {
        vec![after + operand(code, at)]
    } else if number == op("JumpIfFalse") {
        vec![after, after + operand(code, at)]
    } else if number == op("Loop") {
        after.checked_sub(operand(code, at)).into_iter().collect()
    } else {
        vec![after]
    }
}

/// The offsets at which an instruction may begin in a run, lowest first. Only these can be told from
/// operands: any byte may be jumped to.
fn beginnings(code: &[u8]) -> Vec<usize> {
    let mut seen = vec![false; code.len()];
    let mut open = vec![0];
    while let Some(at) = open.pop() {
        if at >= code.len() || seen[at] {
            continue;
        }
        seen[at] = true;
        if let Some(length) = length(code, at) {
            open.extend(next(code, at, length));
        }
    }
    (0..code.len()).filter(|at| seen[*at]).collect()
}

/// The published machine's code for an image's code. `opcodes` has the published machine's number for
/// each instruction.
pub fn published(code: &[u8], opcodes: &[u8]) -> Code {
    let beginnings = beginnings(code);
    in_place(code, &beginnings, opcodes)
        .unwrap_or_else(|| layout::laid_out(code, &beginnings, opcodes))
}

/// A byte that is no instruction of the published machine. It stands for one that the image's machine
/// does not know either.
pub(crate) const UNKNOWN: u8 = 255;

/// The code with every offset kept, or none where two instructions that a run may begin share a byte
/// that would have to be two different ones. A byte that no run begins or reads is left zero.
fn in_place(code: &[u8], beginnings: &[usize], opcodes: &[u8]) -> Option<Code> {
    let mut bytes: Vec<Option<u8>> = vec![None; code.len()];
    let mut put = |at: usize, byte: u8| *bytes[at].get_or_insert(byte) == byte;
    for at in beginnings {
        let opcode = opcodes.get(code[*at] as usize).unwrap_or(&UNKNOWN);
        if !put(*at, *opcode) {
            return None;
        }
        // One that is unknown or cut has no operands that could be read.
        let length = length(code, *at).unwrap_or(1);
        for high in (at + 1..at + length).step_by(2) {
            if !(put(high, code[high + 1]) && put(high + 1, code[high])) {
                return None;
            }
        }
    }
    Some(Code {
        bytes: bytes.iter().map(|byte| byte.unwrap_or(0)).collect(),
        places: (0..code.len() as u16).map(Some).collect(),
    })
}
