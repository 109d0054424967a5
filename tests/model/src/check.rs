//! The stack check: first the faults 10 to 12 of what is reachable, then whether heights exist.

use crate::table::{self, Instruction, Op};
use image::{Chunk, Constant, Image};

#[derive(Debug, Clone, Copy, PartialEq, Eq)]
pub enum Checked {
    Pass,
    Fault {
        number: u8,
        chunk: usize,
        offset: usize,
    },
}

/// Judges every chunk; the lowest faulty one decides.
pub fn stack_check(image: &Image) -> Checked {
    for (number, chunk) in image.chunks.iter().enumerate() {
        let fault = fault_of(chunk).or_else(|| {
            let exist = heights_exist(chunk);
            (!exist).then_some((13, 0))
        });
        if let Some((fault, offset)) = fault {
            return Checked::Fault {
                number: fault,
                chunk: number,
                offset,
            };
        }
    }
    Checked::Pass
}

/// The instruction at a reachable offset before the code's end, or its fault 10, 11 or 12.
fn judge(chunk: &Chunk, at: usize) -> Result<Instruction, u8> {
    let instruction = table::read(&chunk.code, at).map_err(|_| 10)?;
    let operands = instruction.operands;
    let constant = |index: u16| chunk.constants.get(index as usize);
    let is_str = |index: u16| matches!(constant(index), Some(Constant::Str(_)));
    match instruction.op {
        Op::Cast if operands[0] > 9 => Err(10),
        Op::Loop if at + 3 < operands[0] as usize => Err(11),
        Op::Const if constant(operands[0]).is_none() => Err(12),
        Op::BuildClosure if !matches!(constant(operands[0]), Some(Constant::Function(_))) => {
            Err(12)
        }
        Op::IsKind if !(is_str(operands[1]) && is_str(operands[3])) => Err(12),
        _ => Ok(instruction),
    }
}

/// The offsets that come after an instruction without fault.
fn after(instruction: &Instruction, at: usize) -> Vec<usize> {
    let next = at + instruction.length;
    let distance = instruction.operands[0] as usize;
    match instruction.op {
        Op::Jump => vec![next + distance],
        Op::Loop => vec![next - distance],
        Op::JumpIfFalse => vec![next + distance, next],
        Op::Return => vec![],
        _ => vec![next],
    }
}

/// The fault 10, 11 or 12 at the lowest reachable offset.
fn fault_of(chunk: &Chunk) -> Option<(u8, usize)> {
    let mut reached = vec![false; chunk.code.len()];
    let mut open = vec![0];
    let mut lowest: Option<(u8, usize)> = None;
    while let Some(at) = open.pop() {
        if at >= reached.len() || reached[at] {
            continue;
        }
        reached[at] = true;
        match judge(chunk, at) {
            Ok(instruction) => open.extend(after(&instruction, at)),
            Err(number) if lowest.is_none_or(|(_, offset)| at < offset) => {
                lowest = Some((number, at));
            }
            Err(_) => {}
        }
    }
    lowest
}

/// Whether every reachable offset before the end has one height and one depth that serve. The chunk
/// has no fault 10 to 12.
fn heights_exist(chunk: &Chunk) -> bool {
    let mut known: Vec<Option<(i64, i64)>> = vec![None; chunk.code.len()];
    let mut open = vec![(0, (0, 0))];
    while let Some((at, (height, depth))) = open.pop() {
        if at >= known.len() {
            if height != 0 {
                return false;
            }
            continue;
        }
        if let Some(before) = known[at] {
            if before != (height, depth) {
                return false;
            }
            continue;
        }
        known[at] = Some((height, depth));
        let instruction = judge(chunk, at).expect("no fault is left");
        if !serves(&instruction, height, depth) {
            return false;
        }
        let left = (height + instruction.change(), depth + turn(&instruction));
        open.extend(after(&instruction, at).into_iter().map(|to| (to, left)));
    }
    true
}

/// Whether the instruction may stand at a height and a depth.
fn serves(instruction: &Instruction, height: i64, depth: i64) -> bool {
    match instruction.op {
        Op::Return | Op::Propagate => height == 1,
        Op::PopScope => depth >= 1,
        _ => instruction.needs() <= height,
    }
}

/// What the instruction adds to the depth.
fn turn(instruction: &Instruction) -> i64 {
    match instruction.op {
        Op::PushScope => 1,
        Op::PopScope => -1,
        _ => 0,
    }
}
