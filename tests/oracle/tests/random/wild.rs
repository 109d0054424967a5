//! Programs drawn blindly: most of them stop soon, in every way there is.

use crate::Random;
use image::{Chunk, Constant, INSTRUCTIONS, Image, op};

/// A constant; a Function only where a chunk above is left.
pub fn constant(random: &mut Random, chunk: usize, chunks: usize) -> Constant {
    let small = random.below(5) as i64 - 2;
    match random.below(20) {
        0 => Constant::Null,
        1 => Constant::UInt(random.below(4) as u64),
        2 => Constant::SInt(if random.one_in(3) {
            i32::MIN
        } else {
            small as i32
        }),
        3 => Constant::SUInt(small as u32),
        4 | 5 => Constant::Float([0, 0x7FF8 << 48, 0x3FF8 << 48, 0xFFF0 << 48][random.below(4)]),
        6 => Constant::SFloat([0, 0x8000_0000, 0x7FA0_0000, 0x4B80_0001][random.below(4)]),
        7 => Constant::Bool(random.one_in(2)),
        8 => Constant::Str(random.below(4) as u16),
        9 => Constant::Char(0x1F600),
        10 => Constant::Byte(small as u8),
        11 => Constant::SByte(small as i8),
        12 => Constant::BByte(small as u16),
        13 => Constant::BSByte(small as i16),
        14..=16 if chunk + 1 < chunks => {
            Constant::Function((chunk + 1 + random.below(chunks - chunk - 1)) as u16)
        }
        _ => Constant::Int(if random.one_in(12) { i64::MAX } else { small }),
    }
}

/// An operand that is likely to make sense.
pub fn operand(random: &mut Random, name: &str, constants: usize, which: usize) -> u16 {
    if random.one_in(60) {
        return random.draw() as u16;
    }
    let bound = match (name, which) {
        ("Const", _) | ("BuildClosure", 0) | ("IsKind", 1 | 3) => constants,
        ("IsKind", _) => 26,
        ("Cast", _) => 10,
        ("Jump" | "JumpIfFalse", _) => 12,
        ("Loop", _) => 20,
        _ => 4,
    };
    random.below(bound.max(1)) as u16
}

fn chunk(random: &mut Random, number: usize, chunks: usize) -> Chunk {
    let mut made = Chunk {
        arity: if number == 0 {
            0
        } else {
            random.below(3) as u8
        },
        name: random.below(4) as u16,
        ..Chunk::default()
    };
    for _ in 0..1 + random.below(6) {
        made.constants.push(constant(random, number, chunks));
    }
    made.constants.push(Constant::Str(1));
    let mut height = 0_i64;
    for _ in 0..random.below(40) {
        let (name, count) = loop {
            let number = if random.one_in(3) {
                0
            } else {
                random.below(38)
            };
            let (name, count) = INSTRUCTIONS[number];
            let rare = matches!(name, "Loop" | "Return") && !random.one_in(6);
            if !rare && (needs(name) <= height || random.one_in(40)) {
                break (name, count);
            }
        };
        let operands: Vec<u16> = (0..count)
            .map(|which| operand(random, name, made.constants.len(), which))
            .collect();
        made.emit(name, &operands);
        height += change(name);
    }
    made
}

/// Roughly what an instruction needs; enough to have most programs go on for a while.
fn needs(name: &str) -> i64 {
    match name {
        "Const" | "GetLocal" | "GetGlobal" | "BuildClosure" | "PushScope" | "PopScope" => 0,
        "Jump" | "Loop" | "Return" => 0,
        "ArrSet" | "Call" | "BuildArr" | "BuildTuple" => 3,
        "Add" | "Sub" | "Mul" | "Div" | "Eq" | "NotEq" | "Index" => 2,
        "Less" | "LessEq" | "Greater" | "GreaterEq" => 2,
        _ => 1,
    }
}

fn change(name: &str) -> i64 {
    match name {
        "Const" | "GetLocal" | "GetGlobal" | "BuildClosure" => 1,
        "Negate" | "Not" | "Ok" | "Err" | "Error" | "ArrLen" | "Cast" | "IsKind" => 0,
        "SetLocal" | "SetGlobal" | "Propagate" | "PushScope" | "PopScope" | "Jump" | "Loop" => 0,
        "ArrSet" => -2,
        _ => -1,
    }
}

pub fn program(seed: u64) -> Image {
    let mut random = Random::new(seed);
    let chunks = 1 + random.below(4);
    let texts = ["top", "f", "", "f"];
    let mut image = Image {
        texts: texts.iter().map(|t| t.as_bytes().to_vec()).collect(),
        chunks: (0..chunks).map(|n| chunk(&mut random, n, chunks)).collect(),
    };
    // One program in eight is damaged: any byte of its code may become any other.
    let damaged = random.below(8 * chunks);
    if damaged < chunks && !image.chunks[damaged].code.is_empty() {
        let at = random.below(image.chunks[damaged].code.len());
        image.chunks[damaged].code[at] = random.below(op("IsKind") as usize + 3) as u8;
    }
    image
}
