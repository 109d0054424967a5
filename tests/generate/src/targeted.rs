//! Cases for each rule by itself: every cast pair, every operation at its edges, every kind test,
//! equality, and each instruction's faults in their order.

mod faults;
mod frames;
mod shapes;

use crate::Case;
use crate::code::Code;
use crate::numbers::{NUMS, Num};
use image::{Constant, Image};
use model::{Answer, BUDGET, ROOM};

pub use faults::faults;
pub use frames::frames;
pub use shapes::{equality, kinds};

/// Constants, then one instruction that leaves one value.
#[derive(Debug, Clone)]
struct Small {
    constants: Vec<Constant>,
    name: &'static str,
    operands: Vec<u16>,
}

impl Small {
    fn write(&self, code: &mut Code) {
        for constant in &self.constants {
            code.push(*constant);
        }
        code.op(self.name, &self.operands);
    }

    fn image(&self) -> Image {
        let mut code = Code::default();
        self.write(&mut code);
        finished(code)
    }
}

/// A top chunk alone, with a nameless text.
fn finished(mut code: Code) -> Image {
    code.op("Return", &[]);
    Image {
        texts: vec![vec![]],
        chunks: vec![code.chunk],
    }
}

/// Those that give a value come together in arrays, as many as fit, the others alone: a stop ends
/// the run it is in.
fn bundled(name: &str, smalls: &[Small]) -> Vec<Case> {
    let mut cases = Vec::new();
    let mut values = Vec::new();
    for small in smalls {
        let image = small.image();
        match model::run(&image, BUDGET, ROOM) {
            Answer::Value { .. } => values.push(small),
            Answer::Stop { .. } => cases.push(Case::of(name, &image)),
        }
    }
    for part in values.chunks(60) {
        let mut code = Code::default();
        part.iter().for_each(|small| small.write(&mut code));
        code.op("BuildArr", &[part.len() as u16]);
        cases.push(Case::of(name, &finished(code)));
    }
    cases
}

/// The targeted cases, in a fixed order.
pub fn targeted() -> Vec<Case> {
    let mut cases = casts();
    cases.extend(arithmetic());
    cases.extend(comparisons());
    cases.extend(negations());
    cases.extend(kinds());
    cases.extend(equality());
    cases.extend(faults());
    cases.extend(frames());
    cases
}

/// Every cast pair, at every edge of the kind it is from.
pub fn casts() -> Vec<Case> {
    let mut cases = Vec::new();
    for from in NUMS {
        for to in NUMS {
            let cast = |constant: Constant| Small {
                constants: vec![constant],
                name: "Cast",
                operands: vec![to.target()],
            };
            let smalls: Vec<Small> = from.cast_edges().into_iter().map(cast).collect();
            cases.extend(bundled(&format!("cast {from:?} to {to:?}"), &smalls));
        }
    }
    cases
}

/// Values of a kind between which sums, products, quotients and comparisons change their answer.
fn sharp(kind: Num) -> Vec<Constant> {
    let bits: &[u64] = match kind {
        Num::Float => &[
            0,
            1 << 63,
            1,
            0x3FF0000000000000,
            0xBFF8000000000000,
            0x3FB999999999999A,
            0x7FEFFFFFFFFFFFFF,
            0x7FF0000000000000,
            0xFFF0000000000000,
            0x7FF8000000000000,
            0x0010000000000000,
            0x3CA0000000000000,
        ],
        Num::SFloat => &[
            0,
            1 << 31,
            1,
            0x3F800000,
            0xBFC00000,
            0x3DCCCCCD,
            0x7F7FFFFF,
            0x7F800000,
            0xFF800000,
            0x7FC00000,
            0x00800000,
            0x33800000,
        ],
        kind => {
            let width = kind.of(0).payload().len() as u64 * 8;
            let half = 1 << (width / 2);
            let top = 1 << (width - 1);
            let numbers = [0, 1, 2, u64::MAX, top - 1, top, top + 1, half, half - 1, 7];
            return numbers.iter().map(|&n| kind.bits(n)).collect();
        }
    };
    bits.iter().map(|&n| kind.bits(n)).collect()
}

fn pairs(name: &'static str, values: &[Constant]) -> Vec<Small> {
    let mut smalls = Vec::new();
    for a in values {
        for b in values {
            smalls.push(Small {
                constants: vec![*a, *b],
                name,
                operands: vec![],
            });
        }
    }
    smalls
}

/// Each operation on each kind, at its edges.
pub fn arithmetic() -> Vec<Case> {
    let mut cases = Vec::new();
    for kind in NUMS {
        for name in ["Add", "Sub", "Mul", "Div"] {
            let smalls = pairs(name, &sharp(kind));
            cases.extend(bundled(&format!("{name} {kind:?}"), &smalls));
        }
    }
    cases
}

pub fn comparisons() -> Vec<Case> {
    let mut cases = Vec::new();
    for kind in NUMS {
        // An order needs fewer values than a sum to show itself.
        let mut values = sharp(kind);
        if !kind.is_float() {
            values.truncate(6);
        }
        for name in ["Less", "LessEq", "Greater", "GreaterEq", "Eq", "NotEq"] {
            let smalls = pairs(name, &values);
            cases.extend(bundled(&format!("{name} {kind:?}"), &smalls));
        }
    }
    cases
}

pub fn negations() -> Vec<Case> {
    let mut cases = Vec::new();
    for kind in NUMS {
        let negate = |constant: Constant| Small {
            constants: vec![constant],
            name: "Negate",
            operands: vec![],
        };
        // One is enough to see that a kind is not served.
        let edges = kind.edges();
        let few = if kind.is_signed() { edges.len() } else { 1 };
        let smalls: Vec<Small> = edges.into_iter().take(few).map(negate).collect();
        cases.extend(bundled(&format!("Negate {kind:?}"), &smalls));
    }
    cases
}
