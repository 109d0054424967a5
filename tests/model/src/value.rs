//! Values: equality, kind test, nesting, result coding. A value with parts is one shared block, so
//! that a value whose tree is far larger than its memory costs no more than its memory.

use crate::number::{Number, Whole};
use image::{Constant, Image};
use std::collections::HashMap;
use std::rc::Rc;

#[derive(Debug, Clone)]
pub enum Value {
    Null,
    Number(Number),
    Bool(bool),
    /// the text it came with
    Str(u16),
    Char(u32),
    /// the chunk it came with
    Function(u16),
    Block(Rc<Block>),
}

/// The kinds of values with parts.
#[derive(Debug, Clone, Copy, PartialEq, Eq)]
pub enum Shape {
    Arr,
    Tuple,
    Ok,
    Error,
    Err,
    Closure { chunk: u16, start: u16 },
}

#[derive(Debug)]
pub struct Block {
    pub shape: Shape,
    pub parts: Vec<Value>,
    pub nesting: usize,
}

impl Block {
    pub fn new(shape: Shape, parts: Vec<Value>) -> Block {
        let deepest = parts.iter().map(Value::nesting).max().unwrap_or(0);
        Block {
            shape,
            nesting: deepest + 1,
            parts,
        }
    }

    fn kind(&self) -> u8 {
        match self.shape {
            Shape::Arr => 14,
            Shape::Tuple => 17,
            Shape::Ok => 22,
            Shape::Error => 23,
            Shape::Err => 24,
            Shape::Closure { .. } => 25,
        }
    }
}

impl Value {
    pub fn of(constant: &Constant) -> Value {
        let whole = |kind, n: i128| Value::Number(Number::Whole(kind, n));
        match *constant {
            Constant::Null => Value::Null,
            Constant::Int(n) => whole(Whole::Int, n.into()),
            Constant::UInt(n) => whole(Whole::UInt, n.into()),
            Constant::SInt(n) => whole(Whole::SInt, n.into()),
            Constant::SUInt(n) => whole(Whole::SUInt, n.into()),
            Constant::Float(bits) => Value::Number(Number::Float(f64::from_bits(bits))),
            Constant::SFloat(bits) => Value::Number(Number::SFloat(f32::from_bits(bits))),
            Constant::Bool(b) => Value::Bool(b),
            Constant::Str(text) => Value::Str(text),
            Constant::Char(scalar) => Value::Char(scalar),
            Constant::Byte(n) => whole(Whole::Byte, n.into()),
            Constant::SByte(n) => whole(Whole::SByte, n.into()),
            Constant::BByte(n) => whole(Whole::BByte, n.into()),
            Constant::BSByte(n) => whole(Whole::BSByte, n.into()),
            Constant::Function(chunk) => Value::Function(chunk),
        }
    }

    pub fn kind(&self) -> u8 {
        match self {
            Value::Null => 0,
            Value::Number(n) => n.kind(),
            Value::Bool(_) => 7,
            Value::Str(_) => 8,
            Value::Char(_) => 9,
            Value::Function(_) => 20,
            Value::Block(block) => block.kind(),
        }
    }

    pub fn nesting(&self) -> usize {
        match self {
            Value::Block(block) => block.nesting,
            _ => 0,
        }
    }

    /// The kind test. Nothing here has the codes 15, 16, 18, 19, 21, and a code over 23 names none.
    pub fn is_kind(&self, kind: u16, inner: u16) -> bool {
        match (kind, self) {
            (20, _) => self.kind() == 20 || self.kind() == 25,
            (22, Value::Block(block)) if block.shape == Shape::Ok => {
                block.parts[0].is_kind(inner, 0)
            }
            (22, _) => false,
            _ => kind <= 23 && kind == self.kind() as u16,
        }
    }
}

/// Equality to any depth. Pairs of blocks found equal are kept, so that no pair is walked twice.
pub struct Equality<'a> {
    image: &'a Image,
    found: HashMap<(*const Block, *const Block), u64>,
}

impl<'a> Equality<'a> {
    pub fn new(image: &'a Image) -> Self {
        Equality {
            image,
            found: HashMap::new(),
        }
    }

    /// Whether the two are equal, and how many pairs of nodes a walk over the trees looks at.
    pub fn compare(&mut self, a: &Value, b: &Value) -> (bool, u64) {
        let same = match (a, b) {
            (Value::Null, Value::Null) => true,
            (Value::Number(a), Value::Number(b)) => a.equals(*b),
            (Value::Bool(a), Value::Bool(b)) => a == b,
            (Value::Str(a), Value::Str(b)) => self.same_text(*a, *b),
            (Value::Char(a), Value::Char(b)) => a == b,
            (Value::Function(a), Value::Function(b)) => self.same_function(*a, *b),
            (Value::Block(a), Value::Block(b)) => return self.compare_blocks(a, b),
            _ => false,
        };
        (same, 1)
    }

    fn compare_blocks(&mut self, a: &Rc<Block>, b: &Rc<Block>) -> (bool, u64) {
        let pair = (Rc::as_ptr(a), Rc::as_ptr(b));
        if let Some(walk) = self.found.get(&pair) {
            return (true, *walk);
        }
        let mut walk: u64 = 1;
        if !self.same_head(a.shape, b.shape) || a.parts.len() != b.parts.len() {
            return (false, walk);
        }
        for (x, y) in a.parts.iter().zip(&b.parts) {
            let (same, more) = self.compare(x, y);
            walk = walk.saturating_add(more);
            if !same {
                return (false, walk);
            }
        }
        if start_of(a.shape) != start_of(b.shape) {
            return (false, walk);
        }
        self.found.insert(pair, walk);
        (true, walk)
    }

    /// The same kind; for closures, of the same function.
    fn same_head(&self, a: Shape, b: Shape) -> bool {
        match (a, b) {
            (Shape::Closure { chunk: f, .. }, Shape::Closure { chunk: g, .. }) => {
                self.same_function(f, g)
            }
            _ => a == b,
        }
    }

    fn same_text(&self, a: u16, b: u16) -> bool {
        self.image.texts[a as usize] == self.image.texts[b as usize]
    }

    fn same_function(&self, a: u16, b: u16) -> bool {
        let (a, b) = (
            &self.image.chunks[a as usize],
            &self.image.chunks[b as usize],
        );
        a.arity == b.arity && self.same_text(a.name, b.name)
    }
}

/// The capture start of a closure. It is looked at last, as in the published machine, so that the
/// length of the walk is that machine's too.
fn start_of(shape: Shape) -> Option<u16> {
    match shape {
        Shape::Closure { start, .. } => Some(start),
        _ => None,
    }
}

/// The coded result, or none where it is longer than the room.
pub fn code(value: &Value, room: usize) -> Option<Vec<u8>> {
    let mut out = Vec::new();
    code_into(value, room, &mut out);
    (out.len() <= room).then_some(out)
}

/// Goes on only while there is room: every value has a byte at least, so the work is bounded.
fn code_into(value: &Value, room: usize, out: &mut Vec<u8>) {
    if out.len() > room {
        return;
    }
    out.push(value.kind());
    match value {
        Value::Null => {}
        Value::Number(n) => out.extend(n.payload()),
        Value::Bool(b) => out.push(*b as u8),
        Value::Str(text) => out.extend(text.to_be_bytes()),
        Value::Char(scalar) => out.extend(scalar.to_be_bytes()),
        Value::Function(chunk) => out.extend(chunk.to_be_bytes()),
        Value::Block(block) => {
            if let Shape::Closure { chunk, start } = block.shape {
                out.extend(chunk.to_be_bytes());
                out.extend(start.to_be_bytes());
            }
            let counted = !matches!(block.shape, Shape::Ok | Shape::Err | Shape::Error);
            if counted {
                out.extend((block.parts.len() as u16).to_be_bytes());
            }
            for part in &block.parts {
                code_into(part, room, out);
            }
        }
    }
}
