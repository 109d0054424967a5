//! Small programs as the tests write them down: instructions with decimal operands, `;` between.

use image::{Chunk, Constant, INSTRUCTIONS, Image, op};

/// A chunk: its arity, its constants and its code.
pub type Written = (u8, &'static [Constant], &'static str);

/// The code that the text spells. `Byte` has any number of operands and puts them down as bytes.
pub fn code(text: &str) -> Vec<u8> {
    let mut chunk = Chunk::default();
    for instruction in text.split(';').map(str::trim).filter(|s| !s.is_empty()) {
        let mut words = instruction.split_whitespace();
        let name = words.next().expect("a name");
        let operands: Vec<u16> = words.map(|w| w.parse().expect("an operand")).collect();
        match name {
            "Byte" => chunk.code.extend(operands.iter().map(|b| *b as u8)),
            _ => {
                let number = op(name) as usize;
                assert_eq!(INSTRUCTIONS[number].1, operands.len(), "{instruction}");
                chunk.emit(name, &operands);
            }
        }
    }
    chunk.code
}

/// The texts of every written program. Text 3 is equal to text 0. Text 1, which names chunk 1, is
/// how one of the published machine's messages begins: a name must not be taken for a message.
pub const TEXTS: [&str; 4] = ["top", "stack underflow", "", "top"];

/// An image of these chunks. Chunk n has the text n modulo 4 for its name.
pub fn program(chunks: &[Written]) -> Image {
    let chunk = |(number, (arity, constants, text)): (usize, &Written)| Chunk {
        arity: *arity,
        name: number as u16 % 4,
        constants: constants.to_vec(),
        code: code(text),
    };
    Image {
        texts: TEXTS.iter().map(|t| t.as_bytes().to_vec()).collect(),
        chunks: chunks.iter().enumerate().map(chunk).collect(),
    }
}

/// The image lines of such a program.
pub fn bytes(chunks: &[Written]) -> Vec<u8> {
    program(chunks).lines().into_bytes()
}
