//! Writing code with jumps and constants.

use image::{Chunk, Constant};

/// A chunk being written, with the operand height that its code has so far.
#[derive(Debug, Default)]
pub struct Code {
    pub chunk: Chunk,
    pub height: i64,
}

/// What an instruction that goes on adds to the height.
fn change(name: &str, operands: &[u16]) -> i64 {
    let count = operands.first().copied().unwrap_or(0) as i64;
    match name {
        "Const" | "GetLocal" | "GetGlobal" | "BuildClosure" => 1,
        "Add" | "Sub" | "Mul" | "Div" | "Eq" | "NotEq" => -1,
        "Less" | "LessEq" | "Greater" | "GreaterEq" => -1,
        "DefineLocal" | "Pop" | "JumpIfFalse" | "Index" => -1,
        "ArrSet" => -2,
        "Call" => -count,
        "BuildArr" | "BuildTuple" => 1 - count,
        _ => 0,
    }
}

impl Code {
    pub fn op(&mut self, name: &str, operands: &[u16]) {
        self.chunk.emit(name, operands);
        self.height += change(name, operands);
    }

    /// The number of a constant, added where there is no equal one.
    pub fn constant(&mut self, constant: Constant) -> u16 {
        let constants = &mut self.chunk.constants;
        let found = constants.iter().position(|c| *c == constant);
        found.unwrap_or_else(|| {
            constants.push(constant);
            constants.len() - 1
        }) as u16
    }

    pub fn push(&mut self, constant: Constant) {
        let number = self.constant(constant);
        self.op("Const", &[number]);
    }

    /// A jump forward whose place is settled by `land`.
    pub fn jump(&mut self, name: &str) -> usize {
        self.op(name, &[0]);
        self.here()
    }

    /// Lets a jump written before go to the place reached now.
    pub fn land(&mut self, after: usize) {
        let distance = (self.here() - after) as u16;
        self.chunk.code[after - 2..after].copy_from_slice(&distance.to_be_bytes());
    }

    /// A Loop back to a place.
    pub fn back(&mut self, to: usize) {
        let distance = (self.here() + 3 - to) as u16;
        self.op("Loop", &[distance]);
    }

    pub fn here(&self) -> usize {
        self.chunk.code.len()
    }
}
