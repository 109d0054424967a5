//! The published machine's answers for numbers, one line an operation: arithmetic, negation, ordered
//! comparison and casts at edge values and at a sample drawn with a fixed seed. Each is a run of a
//! chunk of `Const`, `Const` again if there are two operands, the operation and `Return`. Where a
//! request of document 02 departs from the published machine, the answer is the model's: at casts of a
//! UInt (E1) and where the least number of a kind is negated (E5).
//!
//! A line has 56 upper-case hexadecimal digits and no spaces: the instruction's number (2), the kind
//! code of the first operand (2) and its payload as a 64-bit word (16, its own width, zeros in
//! front), the same of the second operand, then the kind code of the answer (2) and its word (16).
//! The second operand of Negate is zeros; that of Cast is kind 00 and the target's number. Where the
//! answer is a fault, its number 37 to 42 stands in hexadecimal (`25` to `2A`) in place of the kind,
//! with word zero.

mod edges;

use image::{Chunk, Constant, Image, op};
use model::Answer;
use published::Ending;
use std::collections::HashSet;

/// A number: its kind code and its payload as a word.
#[derive(Debug, Clone, Copy, PartialEq, Eq, Hash)]
pub struct Operand {
    pub kind: u8,
    pub word: u64,
}

/// The ten kinds of numbers.
pub const KINDS: [u8; 10] = [1, 2, 3, 4, 5, 6, 10, 11, 12, 13];
const ARITHMETIC: [&str; 4] = ["Add", "Sub", "Mul", "Div"];
const COMPARISON: [&str; 4] = ["Less", "LessEq", "Greater", "GreaterEq"];

impl Operand {
    fn constant(self) -> Constant {
        match self.kind {
            1 => Constant::Int(self.word as i64),
            2 => Constant::UInt(self.word),
            3 => Constant::SInt(self.word as i32),
            4 => Constant::SUInt(self.word as u32),
            5 => Constant::Float(self.word),
            6 => Constant::SFloat(self.word as u32),
            10 => Constant::Byte(self.word as u8),
            11 => Constant::SByte(self.word as i8),
            12 => Constant::BByte(self.word as u16),
            13 => Constant::BSByte(self.word as i16),
            other => panic!("{other} is no kind of number"),
        }
    }

    fn of_result(bytes: &[u8]) -> Operand {
        Operand {
            kind: bytes[0],
            word: bytes[1..].iter().fold(0, |w, b| w << 8 | *b as u64),
        }
    }

    fn of_fault(number: u8) -> Operand {
        Operand {
            kind: number,
            word: 0,
        }
    }
}

/// The published machine's answer, or the model's where a request departs from it: a kind and its
/// word, or the fault's number and zero.
fn answer(name: &str, constants: &[Operand], operands: &[u16]) -> Operand {
    let mut chunk = Chunk::default();
    for (index, constant) in constants.iter().enumerate() {
        chunk.constants.push(constant.constant());
        chunk.emit("Const", &[index as u16]);
    }
    chunk.emit(name, operands);
    chunk.emit("Return", &[]);
    let image = Image {
        texts: vec![b"top".to_vec()],
        chunks: vec![chunk],
    };
    let judged = model::judge(&image, model::BUDGET, model::ROOM);
    match judged.outside {
        None => match published::run(&image).ending {
            Ending::Value(bytes) => Operand::of_result(&bytes),
            Ending::Stop { number, .. } => Operand::of_fault(number),
            other => panic!("a number operation ended in {other:?}"),
        },
        Some(why) if why.by_request() => match judged.answer {
            Answer::Value { bytes, .. } => Operand::of_result(&bytes),
            Answer::Stop { number, .. } => Operand::of_fault(number),
        },
        Some(why) => panic!("a number operation is outside the domain: {why}"),
    }
}

/// Collects lines, each one once.
#[derive(Default)]
struct Lines {
    seen: HashSet<String>,
    lines: Vec<String>,
}

impl Lines {
    fn line(&mut self, name: &str, first: Operand, second: Operand, answer: Operand) {
        let mut line = format!("{:02X}", op(name));
        for part in [first, second, answer] {
            line.push_str(&format!("{:02X}{:016X}", part.kind, part.word));
        }
        if self.seen.insert(line.clone()) {
            self.lines.push(line);
        }
    }

    fn binary(&mut self, name: &str, a: Operand, b: Operand) {
        self.line(name, a, b, answer(name, &[a, b], &[]));
    }

    fn negate(&mut self, a: Operand) {
        let none = Operand { kind: 0, word: 0 };
        self.line("Negate", a, none, answer("Negate", &[a], &[]));
    }

    fn cast(&mut self, a: Operand, target: u16) {
        let second = Operand {
            kind: 0,
            word: target as u64,
        };
        self.line("Cast", a, second, answer("Cast", &[a], &[target]));
    }

    fn pairs(&mut self, names: &[&str], edges: &[Operand]) {
        for name in names {
            for a in edges {
                for b in edges {
                    self.binary(name, *a, *b);
                }
            }
        }
    }

    /// Operands of two different kinds serve no operation.
    fn mixed(&mut self) {
        for (i, j) in KINDS.into_iter().zip(KINDS.into_iter().skip(1)) {
            let (a, b) = (Operand { kind: i, word: 1 }, Operand { kind: j, word: 1 });
            for name in ARITHMETIC.iter().chain(&COMPARISON) {
                self.binary(name, a, b);
                self.binary(name, b, a);
            }
        }
        for i in KINDS {
            for j in KINDS {
                let (a, b) = (Operand { kind: i, word: 0 }, Operand { kind: j, word: 0 });
                self.binary("Div", a, b);
            }
        }
    }

    fn edges(&mut self) {
        for kind in KINDS {
            self.pairs(&ARITHMETIC, &edges::arithmetic(kind));
            self.pairs(&COMPARISON, &edges::comparison(kind));
            for a in edges::arithmetic(kind) {
                self.negate(a);
            }
            for a in edges::casts(kind) {
                for target in 0..10 {
                    self.cast(a, target);
                }
            }
        }
    }

    /// Operands drawn at random, with more than their share of small and of nearly equal ones.
    fn sample(&mut self, count: usize) {
        let mut random = Random(0x9E37_79B9_7F4A_7C15);
        for _ in 0..count {
            let kind = KINDS[random.below(10) as usize];
            let (a, b) = (random.operand(kind), random.operand(kind));
            match random.below(4) {
                0 => self.binary(ARITHMETIC[random.below(4) as usize], a, b),
                1 => self.binary(COMPARISON[random.below(4) as usize], a, b),
                2 => self.negate(a),
                _ => self.cast(a, random.below(10) as u16),
            }
        }
    }
}

/// A small generator of pseudo-random numbers (xorshift64*).
struct Random(u64);

impl Random {
    fn next(&mut self) -> u64 {
        self.0 ^= self.0 >> 12;
        self.0 ^= self.0 << 25;
        self.0 ^= self.0 >> 27;
        self.0.wrapping_mul(0x2545_F491_4F6C_DD1D)
    }

    fn below(&mut self, bound: u64) -> u64 {
        (self.next() >> 16) % bound
    }

    fn operand(&mut self, kind: u8) -> Operand {
        let bits = match kind {
            1 | 2 | 5 => 64,
            3 | 4 | 6 => 32,
            12 | 13 => 16,
            _ => 8,
        };
        let mask = u64::MAX >> (64 - bits);
        let word = match (kind, self.below(2)) {
            // A float between 2^-16 and 2^80 or so: most random bits are far larger or smaller.
            (5, 0) => self.below(2) << 63 | (1007 + self.below(96)) << 52 | self.next() >> 12,
            (6, 0) => self.below(2) << 31 | (111 + self.below(96)) << 23 | self.next() >> 41,
            (_, 0) => self.next() >> self.below(64),
            _ => self.next(),
        };
        Operand {
            kind,
            word: word & mask,
        }
    }
}

/// All lines, without their line feeds, always the same.
pub fn lines() -> Vec<String> {
    let mut all = Lines::default();
    all.edges();
    all.mixed();
    all.sample(600);
    all.lines
}

/// The text of the stored file.
pub fn text() -> String {
    lines().iter().map(|line| format!("{line}\n")).collect()
}
