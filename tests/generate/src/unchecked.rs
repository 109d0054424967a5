//! Bytecode that nobody checked: random instructions with plausible operands, and random bytes.

use crate::code::Code;
use crate::numbers::{NUMS, Num};
use crate::rng::Rng;
use image::{Chunk, Constant, INSTRUCTIONS, Image};

/// Random instructions. Some follow the height and mostly ask for no operand that is missing.
pub fn instructions(rng: Rng) -> Image {
    let mut rng = rng;
    let chunks = rng.between(1, 4);
    let careful = rng.percent(75);
    // Few number kinds in one image: operands that go together are then likely.
    let kinds = [*rng.pick(&NUMS), *rng.pick(&NUMS)];
    let mut image = Image {
        texts: texts(&mut rng),
        chunks: Vec::new(),
    };
    for number in 0..chunks {
        let source = Source {
            own: number,
            chunks,
            texts: image.texts.len(),
            kinds: &kinds,
        };
        let chunk = a_chunk(&mut rng, &source, careful);
        image.chunks.push(chunk);
    }
    image
}

/// What a chunk's constants can name.
struct Source<'a> {
    own: usize,
    chunks: usize,
    texts: usize,
    kinds: &'a [Num],
}

fn a_chunk(rng: &mut Rng, source: &Source, careful: bool) -> Chunk {
    let top = source.own == 0;
    let arity = if top { 0 } else { rng.below(3) };
    let mut walk = Walk {
        locals: arity,
        globals: if top { 0 } else { 2 },
        top,
        uint_casts: rng.aside_one_in(8),
        ..Walk::default()
    };
    walk.code.chunk.arity = arity as u8;
    walk.code.chunk.name = rng.below(source.texts) as u16;
    for _ in 0..rng.between(1, 9) {
        let constant = a_constant(rng, source);
        walk.code.chunk.constants.push(constant);
    }
    if top && rng.one_in(2) {
        let globals = rng.below(3) as u16;
        (0..globals).for_each(|slot| walk.defined(slot));
        walk.write("PushScope", &[]);
        let locals = rng.below(3) as u16;
        (0..locals).for_each(|slot| walk.defined(slot));
    }
    for _ in 0..rng.between(1, 40) {
        random_instruction(rng, &mut walk, careful);
    }
    if rng.one_in(2) {
        walk.write("Return", &[]);
    }
    let mut chunk = walk.code.chunk;
    if rng.one_in(8) {
        let length = chunk.code.len();
        chunk.code.truncate(rng.below(length + 1));
    }
    chunk
}

/// Random bytes as code, low ones more often.
pub fn bytes(rng: Rng) -> Image {
    let mut rng = rng;
    let chunks = rng.between(1, 3);
    let mut image = Image {
        texts: texts(&mut rng),
        chunks: Vec::new(),
    };
    for number in 0..chunks {
        let texts = image.texts.len();
        let constants = if rng.one_in(6) { 0 } else { rng.between(1, 5) };
        let source = Source {
            own: number,
            chunks,
            texts,
            kinds: &NUMS,
        };
        let constants = (0..constants).map(|_| a_constant(&mut rng, &source));
        let constants = constants.collect();
        let bound = *rng.pick(&[4, 38, 38, 64, 256]);
        let length = rng.below(80);
        image.chunks.push(Chunk {
            arity: if number == 0 { 0 } else { rng.below(3) as u8 },
            name: rng.below(texts) as u16,
            constants,
            code: (0..length).map(|_| a_byte(&mut rng, bound)).collect(),
        });
    }
    image
}

fn a_byte(rng: &mut Rng, bound: usize) -> u8 {
    match rng.below(4) {
        0 => 0,
        1 => rng.below(8) as u8,
        _ => rng.below(bound) as u8,
    }
}

fn texts(rng: &mut Rng) -> Vec<Vec<u8>> {
    let names: [&[u8]; 4] = [b"", b"f", b"g", b"f"];
    let count = rng.between(1, 4);
    (0..count).map(|_| rng.pick(&names).to_vec()).collect()
}

fn a_constant(rng: &mut Rng, source: &Source) -> Constant {
    let above = source.own + 1;
    match rng.below(10) {
        0 => Constant::Null,
        1..=2 => Constant::Bool(rng.one_in(2)),
        3 => Constant::Str(rng.below(source.texts) as u16),
        4 if rng.one_in(2) => Constant::Char(rng.below(0x80) as u32),
        4..=6 if above < source.chunks => {
            Constant::Function(rng.between(above, source.chunks - 1) as u16)
        }
        _ => {
            let kind = *rng.pick(source.kinds);
            match rng.one_in(4) {
                true => kind.edge(rng),
                false => kind.small(rng),
            }
        }
    }
}

/// What the code written so far would leave, if it ran straight on: enough to make an instruction
/// that gets through likely, not more.
#[derive(Default)]
struct Walk {
    code: Code,
    /// the operands' kinds, `UNKNOWN` where they can't be told
    kinds: Vec<u8>,
    locals: usize,
    globals: usize,
    scopes: usize,
    top: bool,
    /// whether a UInt is cast, which the published machine can't be asked for (document 02, E1)
    uint_casts: bool,
}

const UNKNOWN: u8 = 255;

fn is_number(kind: u8) -> bool {
    matches!(kind, 1..=6 | 10..=13)
}

impl Walk {
    /// The kind of the operand this far below the top, or nothing.
    fn kind(&self, below: usize) -> Option<u8> {
        let at = self.kinds.len().checked_sub(below + 1)?;
        Some(self.kinds[at])
    }

    fn constant_kind(&self, number: usize) -> Option<u8> {
        self.code.chunk.constants.get(number).map(Constant::kind)
    }

    /// Whether the instruction would get through.
    fn likely(&self, name: &str, operands: &[u16]) -> bool {
        let first = operands.first().copied().unwrap_or(0) as usize;
        let top = self.kind(0);
        let is = |below: usize, kinds: &[u8]| self.kind(below).is_some_and(|k| kinds.contains(&k));
        match name {
            "Const" => first < self.code.chunk.constants.len(),
            "Add" | "Sub" | "Mul" | "Div" | "Less" | "LessEq" | "Greater" | "GreaterEq" => {
                top.is_some_and(is_number) && top == self.kind(1)
            }
            "Negate" => is(0, &[1, 3, 5, 6, 11, 13]),
            "Not" | "JumpIfFalse" => is(0, &[7]),
            "Eq" | "NotEq" => self.kinds.len() >= 2,
            "GetLocal" => first < self.locals,
            "SetLocal" => first < self.locals && top.is_some(),
            "GetGlobal" => first < self.globals,
            "SetGlobal" => first < self.globals && top.is_some(),
            "PopScope" => self.scopes > 0,
            "Index" => is(1, &[14, 17]) && is(0, &[1, 2, 10]),
            "ArrLen" => is(0, &[14]),
            "ArrSet" => is(2, &[14]) && is(1, &[1, 2, 10]),
            "Cast" => top.is_some_and(|k| is_number(k) && (k != 2 || self.uint_casts)),
            "Call" => is(first, &[20, 25]),
            "BuildArr" | "BuildTuple" => first <= self.kinds.len(),
            "PushScope" | "Jump" | "Loop" => true,
            "BuildClosure" => self.constant_kind(first) == Some(20),
            "IsKind" => {
                let names = [operands[1], operands[3]];
                let are_texts = names.map(|n| self.constant_kind(n as usize) == Some(8));
                top.is_some() && are_texts == [true, true]
            }
            _ => top.is_some(),
        }
    }

    fn write(&mut self, name: &str, operands: &[u16]) {
        let first = operands.first().copied().unwrap_or(0) as usize;
        let constant = self.constant_kind(first);
        self.code.op(name, operands);
        let (taken, left) = match name {
            "Const" => (0, constant),
            "Add" | "Sub" | "Mul" | "Div" => (2, self.kind(0)),
            "Eq" | "NotEq" | "Less" | "LessEq" | "Greater" | "GreaterEq" => (2, Some(7)),
            "GetLocal" | "GetGlobal" => (0, Some(UNKNOWN)),
            "DefineLocal" | "Pop" | "JumpIfFalse" => (1, None),
            "Ok" => (1, Some(22)),
            "Err" => (1, Some(24)),
            "Error" => (1, Some(23)),
            "Propagate" => (1, Some(UNKNOWN)),
            "BuildArr" => (first, Some(14)),
            "BuildTuple" => (first, Some(17)),
            "Index" => (2, Some(UNKNOWN)),
            "ArrLen" => (1, Some(1)),
            "ArrSet" => (3, Some(14)),
            "BuildClosure" => (0, Some(25)),
            "Call" => (first + 1, Some(UNKNOWN)),
            "Cast" => (1, CAST.get(first).copied()),
            "IsKind" => (1, Some(7)),
            _ => (0, None),
        };
        let kept = self.kinds.len().saturating_sub(taken);
        self.kinds.truncate(kept);
        self.kinds.extend(left);
        self.slots(name, first);
    }

    /// A slot with the first constant.
    fn defined(&mut self, slot: u16) {
        self.write("Const", &[0]);
        self.write("DefineLocal", &[slot]);
    }

    fn slots(&mut self, name: &str, slot: usize) {
        match name {
            "DefineLocal" if self.top && self.scopes == 0 => {
                self.globals = self.globals.max(slot + 1)
            }
            "DefineLocal" => self.locals = self.locals.max(slot + 1),
            "PushScope" => self.scopes += 1,
            "PopScope" => {
                self.scopes = self.scopes.saturating_sub(1);
                self.locals = 0;
            }
            _ => {}
        }
    }
}

/// Those that are seldom likely, and are to be tried more often for it.
const LIKED: [&str; 12] = [
    "Add",
    "Sub",
    "Mul",
    "Div",
    "Less",
    "GreaterEq",
    "Index",
    "ArrSet",
    "Call",
    "GetLocal",
    "SetLocal",
    "PopScope",
];

/// The kinds of the cast targets.
const CAST: [u8; 10] = [1, 5, 2, 6, 4, 3, 12, 13, 10, 11];

fn random_instruction(rng: &mut Rng, walk: &mut Walk, careful: bool) {
    for _ in 0..8 {
        let numbers = walk.likely("Add", &[]) && rng.one_in(2);
        let name = match rng.below(6) {
            _ if numbers => *rng.pick(&LIKED[..6]),
            0 => "Const",
            1 => *rng.pick(&LIKED),
            _ => INSTRUCTIONS[rng.below(INSTRUCTIONS.len())].0,
        };
        let rare = matches!(name, "Return" | "Jump" | "Loop" | "PopScope" | "Pop");
        let operands = operands(rng, name, &walk.code);
        let likely = walk.likely(name, &operands) && !(rare && rng.percent(70));
        if !careful || likely || rng.one_in(300) {
            return walk.write(name, &operands);
        }
    }
    walk.write("Const", &[0]);
}

/// A constant of the wanted kind, mostly, or any.
fn constant_number(rng: &mut Rng, code: &Code, wanted: impl Fn(&Constant) -> bool) -> u16 {
    let constants = &code.chunk.constants;
    let found = constants.iter().position(wanted);
    match found {
        Some(number) if rng.percent(85) => number as u16,
        _ if rng.percent(97) => rng.below(constants.len()) as u16,
        _ => rng.below(300) as u16,
    }
}

fn operands(rng: &mut Rng, name: &str, code: &Code) -> Vec<u16> {
    let is_str = |c: &Constant| matches!(c, Constant::Str(_));
    let is_function = |c: &Constant| matches!(c, Constant::Function(_));
    let slot = |rng: &mut Rng| match rng.percent(97) {
        true => rng.below(4) as u16,
        false => rng.below(70_000) as u16,
    };
    match name {
        "Const" => {
            let bound = match rng.percent(99) {
                true => code.chunk.constants.len(),
                false => 300,
            };
            vec![rng.below(bound) as u16]
        }
        "GetLocal" | "SetLocal" | "GetGlobal" | "SetGlobal" | "DefineLocal" => vec![slot(rng)],
        "Jump" | "JumpIfFalse" => match rng.percent(97) {
            true => vec![rng.below(12) as u16],
            false => vec![rng.draw() as u16],
        },
        "Loop" => match rng.percent(95) {
            true => vec![rng.below(code.here() + 4) as u16],
            false => vec![rng.draw() as u16],
        },
        "Call" | "BuildArr" | "BuildTuple" => vec![rng.below(4) as u16],
        "BuildClosure" => vec![constant_number(rng, code, is_function), slot(rng)],
        "Cast" => match rng.percent(95) {
            true => vec![rng.below(10) as u16],
            false => vec![rng.below(300) as u16],
        },
        "IsKind" => {
            let kind = rng.below(26) as u16;
            let of = constant_number(rng, code, is_str);
            let inner = rng.below(26) as u16;
            vec![kind, of, inner, constant_number(rng, code, is_str)]
        }
        _ => vec![],
    }
}
