//! Programs that do something: each grows by an instruction, or a few, at a time, and what does not
//! make its run longer is mostly taken back. So it goes on through calls, closures, arrays and loops.

use crate::{Random, wild};
use image::{Chunk, Constant, INSTRUCTIONS, Image, op};
use model::Answer;

const TEXTS: [&str; 4] = ["top", "f", "", "f"];

fn empty(random: &mut Random, number: usize, chunks: usize) -> Chunk {
    let constants = 4 + random.below(6);
    let mut made = Chunk {
        arity: if number == 0 {
            0
        } else {
            random.below(3) as u8
        },
        name: random.below(4) as u16,
        constants: (0..constants)
            .map(|_| wild::constant(random, number, chunks))
            .collect(),
        code: vec![op("Return")],
    };
    made.constants.push(Constant::Bool(random.one_in(2)));
    made.constants.push(Constant::Str(2));
    made
}

fn any_constant(random: &mut Random, chunk: &mut Chunk) {
    let index = random.below(chunk.constants.len()) as u16;
    chunk.emit("Const", &[index]);
}

/// A call with the right number of arguments, of a function or of a closure made on the spot.
fn call(random: &mut Random, image: &mut Image, number: usize) {
    let constants = &image.chunks[number].constants;
    let functions: Vec<(usize, u16)> = (constants.iter().enumerate())
        .filter_map(|(index, c)| match c {
            Constant::Function(chunk) => Some((index, *chunk)),
            _ => None,
        })
        .collect();
    if functions.is_empty() {
        return;
    }
    let (index, callee) = functions[random.below(functions.len())];
    let arity = image.chunks[callee as usize].arity as u16;
    let chunk = &mut image.chunks[number];
    if random.one_in(2) {
        chunk.emit("Const", &[index as u16]);
    } else {
        chunk.emit("BuildClosure", &[index as u16, random.below(3) as u16]);
    }
    for _ in 0..arity {
        any_constant(random, chunk);
    }
    chunk.emit("Call", &[arity]);
}

fn instruction(random: &mut Random, chunk: &mut Chunk) {
    let (name, count) = INSTRUCTIONS[random.below(38)];
    let operands: Vec<u16> = (0..count)
        .map(|which| wild::operand(random, name, chunk.constants.len(), which))
        .collect();
    chunk.emit(name, &operands);
}

/// Puts something before the Return that ends every chunk.
fn grow(random: &mut Random, image: &mut Image) {
    let number = random.below(image.chunks.len());
    image.chunks[number].code.pop();
    match random.below(10) {
        0 | 1 => call(random, image, number),
        2..=4 => any_constant(random, &mut image.chunks[number]),
        _ => instruction(random, &mut image.chunks[number]),
    }
    image.chunks[number].emit("Return", &[]);
}

pub fn program(seed: u64) -> Image {
    let mut random = Random::new(!seed);
    let chunks = 1 + random.below(4);
    let mut image = Image {
        texts: TEXTS.iter().map(|t| t.as_bytes().to_vec()).collect(),
        chunks: (0..chunks).map(|n| empty(&mut random, n, chunks)).collect(),
    };
    let mut longest = 0;
    for _ in 0..60 + random.below(120) {
        let before = image.clone();
        grow(&mut random, &mut image);
        match model::run(&image, 3_000, 4_096) {
            Answer::Value { count, .. } if count > longest => longest = count,
            _ if random.one_in(200) => {}
            _ => image = before,
        }
    }
    image
}
