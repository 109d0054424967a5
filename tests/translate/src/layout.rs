//! Code whose instructions overlap, laid out so that they do not: every instruction that a run may
//! begin once, lowest offset first, and where the next one is not the one that follows, a jump put
//! in, which the count leaves out. A jump forward stays one, because the order stays; an
//! unconditional one may turn from Jump to Loop or back, which is the same to a run.

use crate::code::{Code, UNKNOWN, length, operand};
use image::op;

const JUMP: usize = 3;

struct Layout<'a> {
    code: &'a [u8],
    opcodes: &'a [u8],
    /// where each beginning stands in the new code
    positions: Vec<Option<usize>>,
    /// the new code's length
    end: usize,
    out: Code,
}

/// Lays out code of which these are the beginnings, lowest first.
pub fn laid_out(code: &[u8], beginnings: &[usize], opcodes: &[u8]) -> Code {
    let mut positions = vec![None; code.len()];
    let mut end = 0;
    for (number, at) in beginnings.iter().enumerate() {
        positions[*at] = Some(end);
        end += size(code, *at, beginnings.get(number + 1));
    }
    let mut layout = Layout {
        code,
        opcodes,
        positions,
        end,
        out: Code {
            bytes: vec![],
            places: vec![],
        },
    };
    for (number, at) in beginnings.iter().enumerate() {
        layout.instruction(*at, beginnings.get(number + 1));
    }
    layout.out
}

/// Whether the instruction is one that always goes elsewhere.
fn goes_elsewhere(number: u8) -> bool {
    ["Return", "Jump", "Loop"]
        .iter()
        .any(|name| op(name) == number)
}

/// Whether a jump has to be put in after the instruction at `at`: `next` is laid out after it.
fn needs_jump(code: &[u8], at: usize, length: usize, next: Option<&usize>) -> bool {
    !goes_elsewhere(code[at]) && next != Some(&(at + length))
}

fn size(code: &[u8], at: usize, next: Option<&usize>) -> usize {
    match length(code, at) {
        Some(length) if needs_jump(code, at, length, next) => length + JUMP,
        Some(length) => length,
        None => 1,
    }
}

impl Layout<'_> {
    /// Where an offset of the image's code stands; the end for all at or past its end.
    fn position(&self, offset: usize) -> usize {
        let within = self.positions.get(offset).copied().flatten();
        within.unwrap_or(self.end)
    }

    fn put(&mut self, bytes: &[u8], place: Option<usize>) {
        self.out.bytes.extend_from_slice(bytes);
        let places = vec![place.map(|at| at as u16); bytes.len()];
        self.out.places.extend(places);
    }

    fn put_instruction(&mut self, name: &str, operands: &[u16], place: Option<usize>) {
        let mut bytes = vec![self.opcodes[op(name) as usize]];
        bytes.extend(operands.iter().flat_map(|o| o.to_le_bytes()));
        self.put(&bytes, place);
    }

    /// An unconditional jump to a position of the new code, whichever way it goes.
    fn put_jump(&mut self, to: usize, place: Option<usize>) {
        let after = self.out.bytes.len() + JUMP;
        if to >= after {
            self.put_instruction("Jump", &[(to - after) as u16], place);
        } else {
            self.put_instruction("Loop", &[(after - to) as u16], place);
        }
    }

    fn instruction(&mut self, at: usize, next: Option<&usize>) {
        let Some(length) = length(self.code, at) else {
            // Unknown or cut: a run that begins it is outside the domain.
            return self.put(&[UNKNOWN], Some(at));
        };
        let after = at + length;
        let number = self.code[at];
        if number == op("Jump") {
            self.put_jump(self.position(after + operand(self.code, at)), Some(at));
        } else if number == op("Loop") {
            let target = after.checked_sub(operand(self.code, at));
            self.put_jump(target.map_or(self.end, |to| self.position(to)), Some(at));
        } else if number == op("JumpIfFalse") {
            let to = self.position(after + operand(self.code, at));
            let distance = to - (self.out.bytes.len() + JUMP);
            self.put_instruction("JumpIfFalse", &[distance as u16], Some(at));
        } else {
            let operands = self.code[at + 1..after].chunks(2);
            let operands: Vec<u16> = operands
                .map(|pair| u16::from_be_bytes([pair[0], pair[1]]))
                .collect();
            let name = image::INSTRUCTIONS[number as usize].0;
            self.put_instruction(name, &operands, Some(at));
        }
        if needs_jump(self.code, at, length, next) {
            self.put_jump(self.position(after), None);
        }
    }
}
