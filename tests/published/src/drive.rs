//! Runs an image on the published machine of this crate. The crate with the counting line compiles
//! this file too: its machine is a type of its own.

use crate::chunk::{Chunk, OpCode};
use crate::values::{VmFunction, VmValue};
use crate::vm_logic::Vm;
use image::{Constant, INSTRUCTIONS, Image};
use rl_utils::span::Span;
use std::rc::Rc;
use std::sync::OnceLock;
use translate::Ending;

/// The published number of each instruction, found by its name.
fn opcodes() -> &'static [u8] {
    static OPCODES: OnceLock<Vec<u8>> = OnceLock::new();
    OPCODES.get_or_init(|| {
        let published: Vec<String> = (0..=OpCode::IsKind as u8)
            .map(|byte| format!("{:?}", OpCode::from_u8(byte)))
            .collect();
        let find = |name: &str| published.iter().position(|p| p == name);
        let number = |name: &str| find(name).expect("the published machine has it") as u8;
        INSTRUCTIONS.iter().map(|(name, _)| number(name)).collect()
    })
}

/// What an image's texts and chunks became. A value is told by the address of its text or function,
/// because two of them may be equal and a result names the one that the value came with.
struct Parts {
    texts: Vec<Rc<str>>,
    /// by chunk number, from 1: the top is no function
    functions: Vec<Option<Rc<VmFunction>>>,
}

impl Parts {
    fn value(&self, constant: &Constant) -> VmValue {
        match *constant {
            Constant::Null => VmValue::Null,
            Constant::Int(n) => VmValue::Int(n),
            Constant::UInt(n) => VmValue::UInt(n),
            Constant::SInt(n) => VmValue::SInt(n),
            Constant::SUInt(n) => VmValue::SUInt(n),
            Constant::Float(bits) => VmValue::Float(f64::from_bits(bits)),
            Constant::SFloat(bits) => VmValue::SFloat(f32::from_bits(bits)),
            Constant::Bool(b) => VmValue::Bool(b),
            Constant::Str(text) => VmValue::Str(self.texts[text as usize].clone()),
            Constant::Char(scalar) => VmValue::Char(char::from_u32(scalar).expect("a scalar")),
            Constant::Byte(n) => VmValue::Byte(n),
            Constant::SByte(n) => VmValue::SByte(n),
            Constant::BByte(n) => VmValue::BByte(n),
            Constant::BSByte(n) => VmValue::BSByte(n),
            Constant::Function(chunk) => {
                let function = self.functions[chunk as usize].clone();
                VmValue::Function(function.expect("a chunk above its own"))
            }
        }
    }

    fn text_number(&self, text: &Rc<str>) -> u16 {
        let found = self.texts.iter().position(|t| Rc::ptr_eq(t, text));
        found.expect("every text comes from the image") as u16
    }

    fn chunk_number(&self, function: &Rc<VmFunction>) -> u16 {
        let same = |f: &Option<Rc<VmFunction>>| f.as_ref().is_some_and(|f| Rc::ptr_eq(f, function));
        let found = self.functions.iter().position(same);
        found.expect("every function comes from the image") as u16
    }
}

fn build_chunk(image: &Image, number: usize, parts: &Parts) -> Chunk {
    let from = &image.chunks[number];
    let code = translate::code::published(&from.code, opcodes());
    let span = |place: &Option<u16>| match *place {
        Some(offset) => Span {
            chunk: number as u16,
            offset,
        },
        None => Span::NOWHERE,
    };
    Chunk {
        code: code.bytes,
        constants: from.constants.iter().map(|c| parts.value(c)).collect(),
        spans: code.places.iter().map(span).collect(),
    }
}

/// The parts and the top chunk. A Function names a chunk above its own, so the last comes first.
fn build(image: &Image) -> (Parts, Chunk) {
    let text = |bytes: &Vec<u8>| String::from_utf8(bytes.clone()).expect("a text is ASCII");
    let mut parts = Parts {
        texts: image.texts.iter().map(|t| Rc::from(text(t))).collect(),
        functions: vec![None; image.chunks.len()],
    };
    for number in (1..image.chunks.len()).rev() {
        let chunk = build_chunk(image, number, &parts);
        parts.functions[number] = Some(Rc::new(VmFunction {
            name: text(&image.texts[image.chunks[number].name as usize]),
            arity: image.chunks[number].arity as usize,
            chunk,
        }));
    }
    let top = build_chunk(image, 0, &parts);
    (parts, top)
}

/// Codes results as document 01 does. It stops as soon as the room is full: a value may be far
/// larger than its memory, since its parts are shared.
struct Coder<'a> {
    parts: &'a Parts,
    room: usize,
    out: Vec<u8>,
}

impl Coder<'_> {
    fn head(&mut self, kind: u8, fields: &[u8]) {
        self.out.push(kind);
        self.out.extend_from_slice(fields);
    }

    fn list(&mut self, items: &[VmValue]) {
        self.out.extend((items.len() as u16).to_be_bytes());
        for item in items {
            self.value(item);
        }
    }

    fn value(&mut self, value: &VmValue) {
        if self.out.len() > self.room {
            return;
        }
        match value {
            VmValue::Null => self.head(0, &[]),
            VmValue::Int(n) => self.head(1, &n.to_be_bytes()),
            VmValue::UInt(n) => self.head(2, &n.to_be_bytes()),
            VmValue::SInt(n) => self.head(3, &n.to_be_bytes()),
            VmValue::SUInt(n) => self.head(4, &n.to_be_bytes()),
            VmValue::Float(f) => self.head(5, &f64_bits(*f).to_be_bytes()),
            VmValue::SFloat(f) => self.head(6, &f32_bits(*f).to_be_bytes()),
            VmValue::Bool(b) => self.head(7, &[*b as u8]),
            VmValue::Str(s) => self.head(8, &self.parts.text_number(s).to_be_bytes()),
            VmValue::Char(c) => self.head(9, &(*c as u32).to_be_bytes()),
            VmValue::Byte(n) => self.head(10, &n.to_be_bytes()),
            VmValue::SByte(n) => self.head(11, &n.to_be_bytes()),
            VmValue::BByte(n) => self.head(12, &n.to_be_bytes()),
            VmValue::BSByte(n) => self.head(13, &n.to_be_bytes()),
            VmValue::Function(f) => self.head(20, &self.parts.chunk_number(f).to_be_bytes()),
            other => self.compound(other),
        }
    }

    fn compound(&mut self, value: &VmValue) {
        match value {
            VmValue::Arr(items) => {
                self.out.push(14);
                self.list(items);
            }
            VmValue::Tuple(items) => {
                self.out.push(17);
                self.list(items);
            }
            VmValue::Ok(inner) => {
                self.out.push(22);
                self.value(inner);
            }
            VmValue::Error(inner) => {
                self.out.push(23);
                self.value(inner);
            }
            VmValue::Err(inner) => {
                self.out.push(24);
                self.value(inner);
            }
            VmValue::Closure {
                func,
                captured,
                capture_start,
            } => {
                self.head(25, &self.parts.chunk_number(func).to_be_bytes());
                self.out.extend(capture_start.to_be_bytes());
                self.list(captured);
            }
            other => panic!("no instruction of document 01 makes {}", other.type_name()),
        }
    }
}

/// The bits of a float, those of a NaN in the one way.
fn f64_bits(f: f64) -> u64 {
    if f.is_nan() {
        0x7FF8_0000_0000_0000
    } else {
        f.to_bits()
    }
}

fn f32_bits(f: f32) -> u32 {
    if f.is_nan() { 0x7FC0_0000 } else { f.to_bits() }
}

/// An image built for the machine, to be run any number of times.
pub struct Built {
    parts: Parts,
    top: Chunk,
}

impl Built {
    pub fn new(image: &Image) -> Built {
        let (parts, top) = build(image);
        Built { parts, top }
    }

    /// Runs it on a fresh machine and says how that ended, in document 01's numbers.
    pub fn run(&self, room: usize) -> Ending {
        match Vm::new().run_and_return(&self.top) {
            Ok(value) => self.coded(&value, room),
            Err(error) => match translate::messages::number(&error.message) {
                Some(number) => Ending::Stop {
                    number,
                    chunk: error.span.chunk,
                    offset: error.span.offset,
                },
                None => Ending::Unmapped(error.message),
            },
        }
    }

    fn coded(&self, value: &VmValue, room: usize) -> Ending {
        let mut coder = Coder {
            parts: &self.parts,
            room,
            out: Vec::new(),
        };
        coder.value(value);
        if coder.out.len() > room {
            Ending::TooLong
        } else {
            Ending::Value(coder.out)
        }
    }
}

/// Runs an image on a fresh machine and says how it ended.
pub fn run(image: &Image, room: usize) -> Ending {
    Built::new(image).run(room)
}
