//! The instructions: length, operands needed and change of height of each, and the code read by them.

use image::INSTRUCTIONS;

/// The instructions in document 01's order.
#[derive(Debug, Clone, Copy, PartialEq, Eq)]
pub enum Op {
    Const,
    Add,
    Sub,
    Mul,
    Div,
    Negate,
    Not,
    Eq,
    NotEq,
    Less,
    LessEq,
    Greater,
    GreaterEq,
    GetLocal,
    SetLocal,
    GetGlobal,
    SetGlobal,
    DefineLocal,
    Pop,
    Return,
    PushScope,
    PopScope,
    Jump,
    JumpIfFalse,
    Loop,
    Call,
    Ok,
    Err,
    Propagate,
    Error,
    BuildArr,
    BuildTuple,
    Index,
    ArrLen,
    ArrSet,
    BuildClosure,
    Cast,
    IsKind,
}

/// `OPS[n]` is instruction `n`.
#[rustfmt::skip]
pub const OPS: [Op; 38] = [
    Op::Const, Op::Add, Op::Sub, Op::Mul, Op::Div, Op::Negate, Op::Not, Op::Eq, Op::NotEq, Op::Less,
    Op::LessEq, Op::Greater, Op::GreaterEq, Op::GetLocal, Op::SetLocal, Op::GetGlobal, Op::SetGlobal,
    Op::DefineLocal, Op::Pop, Op::Return, Op::PushScope, Op::PopScope, Op::Jump, Op::JumpIfFalse,
    Op::Loop, Op::Call, Op::Ok, Op::Err, Op::Propagate, Op::Error, Op::BuildArr, Op::BuildTuple,
    Op::Index, Op::ArrLen, Op::ArrSet, Op::BuildClosure, Op::Cast, Op::IsKind,
];

/// An instruction as it stands in the code, its operands read.
#[derive(Debug, Clone, Copy, PartialEq, Eq)]
pub struct Instruction {
    pub op: Op,
    pub operands: [u16; 4],
    pub length: usize,
}

/// Why no instruction can be read at an offset.
#[derive(Debug, Clone, Copy, PartialEq, Eq)]
pub enum Unread {
    Unknown,
    Cut,
}

/// The instruction that begins at an offset below the code's length.
pub fn read(code: &[u8], at: usize) -> Result<Instruction, Unread> {
    let number = code[at] as usize;
    let (_, count) = INSTRUCTIONS.get(number).ok_or(Unread::Unknown)?;
    let length = 1 + 2 * count;
    let bytes = code.get(at + 1..at + length).ok_or(Unread::Cut)?;
    let mut operands = [0; 4];
    for (operand, pair) in operands.iter_mut().zip(bytes.chunks(2)) {
        *operand = u16::from_be_bytes([pair[0], pair[1]]);
    }
    Ok(Instruction {
        op: OPS[number],
        operands,
        length,
    })
}

impl Instruction {
    /// The fewest operands with which no step of it stops with 31.
    pub fn needs(&self) -> i64 {
        let first = self.operands[0] as i64;
        match self.op {
            Op::Add | Op::Sub | Op::Mul | Op::Div | Op::Index => 2,
            Op::Eq | Op::NotEq | Op::Less | Op::LessEq | Op::Greater | Op::GreaterEq => 2,
            Op::Negate | Op::Not | Op::Ok | Op::Err | Op::Error | Op::ArrLen => 1,
            Op::SetLocal | Op::SetGlobal | Op::DefineLocal | Op::Pop | Op::JumpIfFalse => 1,
            Op::Return | Op::Propagate | Op::Cast | Op::IsKind => 1,
            Op::ArrSet => 3,
            Op::Call => first + 1,
            Op::BuildArr | Op::BuildTuple => first,
            Op::Const | Op::GetLocal | Op::GetGlobal | Op::BuildClosure => 0,
            Op::PushScope | Op::PopScope | Op::Jump | Op::Loop => 0,
        }
    }

    /// What a step that goes on in its frame adds to the height; for Call, up to its return.
    pub fn change(&self) -> i64 {
        let first = self.operands[0] as i64;
        match self.op {
            Op::Const | Op::GetLocal | Op::GetGlobal | Op::BuildClosure => 1,
            Op::Add | Op::Sub | Op::Mul | Op::Div | Op::Index => -1,
            Op::Eq | Op::NotEq | Op::Less | Op::LessEq | Op::Greater | Op::GreaterEq => -1,
            Op::DefineLocal | Op::Pop | Op::JumpIfFalse => -1,
            Op::ArrSet => -2,
            Op::Call => -first,
            Op::BuildArr | Op::BuildTuple => 1 - first,
            Op::Negate | Op::Not | Op::Ok | Op::Err | Op::Error | Op::ArrLen => 0,
            Op::SetLocal | Op::SetGlobal | Op::Return | Op::Propagate => 0,
            Op::Cast | Op::IsKind | Op::PushScope | Op::PopScope | Op::Jump | Op::Loop => 0,
        }
    }
}

#[cfg(test)]
mod tests {
    use super::OPS;
    use image::INSTRUCTIONS;

    #[test]
    fn numbers_and_names_are_those_of_the_image() {
        for (op, (name, _)) in OPS.iter().zip(INSTRUCTIONS) {
            assert_eq!(format!("{op:?}"), name);
        }
        assert!(
            OPS.iter()
                .enumerate()
                .all(|(number, op)| *op as usize == number)
        );
    }
}
