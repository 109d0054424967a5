//! Programs that pass the stack check and do real work.
//!
//! The generator follows the type of every value and the operand height at every place, so that most
//! runs get through. What can still stop one is what a planner's sheet can meet as well: a sum out
//! of range, a zero divisor, a NaN compared, an index or a cast out of range, and now and then a
//! fault put in on purpose.

mod body;
mod expression;
mod fault;
mod recursion;
mod statement;

use crate::numbers::{NUMS, Num};
use crate::rng::Rng;
use body::Body;
use image::{Chunk, Constant, Image};

/// What is known of a value when the code is written.
#[derive(Debug, Clone, PartialEq)]
enum Type {
    Null,
    Num(Num),
    /// a loop's counter: read as its number kind, never set by the body
    Counter(Num),
    Bool,
    Str,
    Char,
    Arr(Box<Type>, usize),
    Tuple(Vec<Type>),
    Ok(Box<Type>),
    Err(Box<Type>),
    Error(Box<Type>),
    /// an Ok of this type, or an Err of anything
    Result(Box<Type>),
    /// the function or closure of this chunk
    Fun(usize),
    Any,
}

/// A chunk whose callers are written and whose body is still to come.
#[derive(Debug, Clone)]
struct Plan {
    params: Vec<Type>,
    /// for a closure: the capture start and what it captured
    closure: Option<(usize, Vec<Type>)>,
    result: Type,
    /// how many instructions its body may take, so that a program ends
    cost: i64,
    /// the globals that are defined wherever it is called
    globals: usize,
    recursion: bool,
}

/// How a program is to be.
#[derive(Debug, Clone, Copy)]
pub struct Style {
    /// how many of a hundred constants are edge values
    pub wild: usize,
    /// a fault on purpose in one of this many statements, 0 for none
    pub fault: usize,
    /// statements in a body at most
    pub size: usize,
    /// instructions of the whole run, roughly
    pub cost: i64,
    /// chunks at most
    pub chunks: usize,
    /// whether a UInt is cast, which the published machine can't be asked for (document 02, E1)
    pub uint_casts: bool,
}

struct Program {
    rng: Rng,
    style: Style,
    texts: Vec<Vec<u8>>,
    plans: Vec<Plan>,
    globals: Vec<Type>,
}

/// A program in a style chosen by the source of random numbers.
pub fn passing(rng: Rng) -> Image {
    let mut rng = rng;
    let wild = *rng.pick(&[0, 0, 3, 3, 10, 40]);
    let fault = *rng.pick(&[0, 0, 60, 25, 12]);
    let large = *rng.pick(&[0, 0, 0, 1, 1, 2]);
    let style = Style {
        wild,
        fault,
        size: [4, 7, 12][large],
        cost: [150, 700, 3000][large],
        chunks: [4, 8, 14][large],
        uint_casts: rng.aside_one_in(8),
    };
    styled(rng, style)
}

/// A program in a given style.
pub fn styled(rng: Rng, style: Style) -> Image {
    let mut program = Program {
        rng,
        style,
        texts: vec![b"top".to_vec()],
        plans: Vec::new(),
        globals: Vec::new(),
    };
    let result = program.a_type(2);
    program.plans.push(Plan {
        params: vec![],
        closure: None,
        result,
        cost: style.cost,
        globals: 0,
        recursion: false,
    });
    let mut chunks = Vec::new();
    while chunks.len() < program.plans.len() {
        let number = chunks.len();
        chunks.push(program.chunk(number));
    }
    Image {
        texts: program.texts,
        chunks,
    }
}

impl Program {
    fn chunk(&mut self, number: usize) -> Chunk {
        let plan = self.plans[number].clone();
        let name = match number {
            0 => 0,
            _ => self.chunk_name(),
        };
        let arity = plan.params.len() as u8;
        let mut body = Body::new(self, number, plan);
        body.whole();
        let mut chunk = body.code.chunk;
        chunk.name = name;
        chunk.arity = arity;
        chunk
    }

    /// Names may be shared: functions are equal by name and arity.
    fn chunk_name(&mut self) -> u16 {
        let names: [&[u8]; 6] = [b"f", b"g", b"curve", b"step", b"pickup", b"f"];
        let name = *self.rng.pick(&names);
        self.text(name)
    }

    /// The number of a text; now and then a second one that is equal.
    fn text(&mut self, bytes: &[u8]) -> u16 {
        let found = self.texts.iter().rposition(|text| text == bytes);
        let again = self.texts.len() < 40 && self.rng.one_in(12);
        match found {
            Some(number) if !again => number as u16,
            _ => {
                self.texts.push(bytes.to_vec());
                self.texts.len() as u16 - 1
            }
        }
    }

    fn number_kind(&mut self) -> Num {
        match self.rng.one_in(3) {
            true => Num::Int,
            false => *self.rng.pick(&NUMS),
        }
    }

    fn a_type(&mut self, depth: usize) -> Type {
        let inner = |program: &mut Program| Box::new(program.a_type(depth - 1));
        match self.rng.below(if depth == 0 { 70 } else { 100 }) {
            0..=49 => Type::Num(self.number_kind()),
            50..=58 => Type::Bool,
            59..=62 => Type::Str,
            63..=65 => Type::Char,
            66..=67 => Type::Null,
            68..=69 => Type::Any,
            70..=79 => {
                let length = self.rng.between(0, 4);
                Type::Arr(inner(self), length)
            }
            80..=87 => {
                let length = self.rng.between(0, 3);
                Type::Tuple((0..length).map(|_| self.a_type(depth - 1)).collect())
            }
            88..=94 => Type::Result(inner(self)),
            95..=96 => Type::Ok(inner(self)),
            97 => Type::Err(inner(self)),
            _ => Type::Error(inner(self)),
        }
    }

    fn number(&mut self, kind: Num) -> Constant {
        match self.rng.percent(self.style.wild) {
            true => kind.edge(&mut self.rng),
            false => kind.small(&mut self.rng),
        }
    }

    fn character(&mut self) -> Constant {
        let scalars = [0, 0x41, 0x7A, 0xE9, 0xD7FF, 0xE000, 0x10FFFF];
        Constant::Char(*self.rng.pick(&scalars))
    }

    fn string(&mut self) -> Constant {
        let texts: [&[u8]; 5] = [b"", b"a", b"b", b"ab", b"below pickup"];
        let text = *self.rng.pick(&texts);
        Constant::Str(self.text(text))
    }
}
