//! From an image to assembly text.
//!
//! The code is written from its first byte on, one instruction after another, whatever jumps where:
//! so every byte is written once. What has no name as an instruction is written as bytes.

use crate::constant::{shown_char, shown_float, shown_sfloat};
use crate::token::{is_name, quoted};
use crate::{BUILT_KINDS, KINDS, TARGETS};
use image::{Chunk, Constant, INSTRUCTIONS, Image};
use std::collections::BTreeSet;

/// An assembly text that assembles to this very image, if the image loads.
pub fn disassemble(image: &Image) -> String {
    let mut out = String::new();
    for (number, text) in image.texts.iter().enumerate() {
        out.push_str(&format!("text {}    # @{number}\n", quoted(text)));
    }
    for (number, chunk) in image.chunks.iter().enumerate() {
        let name = name_of(image, chunk);
        let arity = chunk.arity;
        out.push_str(&format!("\nchunk {name}/{arity}    # @{number}\n"));
        for (number, constant) in chunk.constants.iter().enumerate() {
            let shown = shown_constant(image, constant);
            out.push_str(&format!("  const c{number} = {shown}\n"));
        }
        out.push_str(&code(image, chunk));
    }
    out
}

/// The text's number where only that says which it is: an equal one stands before it.
fn text_of(image: &Image, number: u16) -> String {
    let bytes = image.texts.get(number as usize);
    let first = image.texts.iter().position(|text| Some(text) == bytes);
    match bytes {
        Some(bytes) if first == Some(number as usize) => quoted(bytes),
        _ => format!("@{number}"),
    }
}

/// A chunk's name, without quotes where it can do without.
fn name_of(image: &Image, chunk: &Chunk) -> String {
    let shown = text_of(image, chunk.name);
    let bare = shown.trim_matches('"');
    match is_name(bare) {
        true => bare.to_string(),
        false => shown,
    }
}

/// A chunk by its name where the name is its alone and the assembler will see it.
fn function_of(image: &Image, number: u16) -> String {
    let Some(chunk) = image.chunks.get(number as usize) else {
        return format!("@{number}");
    };
    let text = |chunk: &Chunk| image.texts.get(chunk.name as usize).cloned();
    let same = image.chunks.iter().filter(|c| text(c) == text(chunk));
    let name = name_of(image, chunk);
    match same.count() == 1 && !name.starts_with('@') {
        true => name,
        false => format!("@{number}"),
    }
}

fn shown_constant(image: &Image, constant: &Constant) -> String {
    match *constant {
        Constant::Null => "Null".to_string(),
        Constant::Int(n) => format!("Int {n}"),
        Constant::UInt(n) => format!("UInt {n}"),
        Constant::SInt(n) => format!("SInt {n}"),
        Constant::SUInt(n) => format!("SUInt {n}"),
        Constant::Float(bits) => format!("Float {}", shown_float(bits)),
        Constant::SFloat(bits) => format!("SFloat {}", shown_sfloat(bits)),
        Constant::Bool(b) => format!("Bool {b}"),
        Constant::Str(text) => format!("Str {}", text_of(image, text)),
        Constant::Char(scalar) => format!("Char {}", shown_char(scalar)),
        Constant::Byte(n) => format!("Byte {n}"),
        Constant::SByte(n) => format!("SByte {n}"),
        Constant::BByte(n) => format!("BByte {n}"),
        Constant::BSByte(n) => format!("BSByte {n}"),
        Constant::Function(chunk) => format!("Function {}", function_of(image, chunk)),
    }
}

/// One written line: an instruction with its operands, or bytes that are none.
struct Piece {
    at: usize,
    operands: Option<Vec<u16>>,
    bytes: Vec<u8>,
}

fn pieces(code: &[u8]) -> Vec<Piece> {
    let mut pieces = Vec::new();
    let mut at = 0;
    while at < code.len() {
        let operands = INSTRUCTIONS.get(code[at] as usize).map(|(_, n)| *n);
        let end = match operands {
            Some(count) => at + 1 + 2 * count,
            None => at + 1,
        };
        let whole = operands.is_some() && end <= code.len();
        let bytes = &code[at..end.min(code.len())];
        let pairs = bytes[1..].chunks_exact(2);
        let read = pairs.map(|pair| u16::from_be_bytes([pair[0], pair[1]]));
        pieces.push(Piece {
            at,
            operands: whole.then(|| read.collect()),
            bytes: bytes.to_vec(),
        });
        at = end;
    }
    pieces
}

/// Where a jump goes, if it is one and does not leave the code's front.
fn destination(piece: &Piece) -> Option<usize> {
    let operand = *piece.operands.as_ref()?.first()? as usize;
    let after = piece.at + 3;
    match INSTRUCTIONS[piece.bytes[0] as usize].0 {
        "Jump" | "JumpIfFalse" => Some(after + operand),
        "Loop" => after.checked_sub(operand),
        _ => None,
    }
}

/// The places that get a label: where a jump meets the front of a written line, or the code's end.
fn labelled(code: &[u8], pieces: &[Piece]) -> BTreeSet<usize> {
    let mut fronts: BTreeSet<usize> = pieces.iter().map(|piece| piece.at).collect();
    fronts.insert(code.len());
    let wanted: BTreeSet<usize> = pieces.iter().filter_map(destination).collect();
    fronts.intersection(&wanted).copied().collect()
}

fn code(image: &Image, chunk: &Chunk) -> String {
    let pieces = pieces(&chunk.code);
    let labels = labelled(&chunk.code, &pieces);
    let mut out = String::new();
    for piece in &pieces {
        if labels.contains(&piece.at) {
            out.push_str(&format!("L{}:\n", piece.at));
        }
        let text = match &piece.operands {
            Some(operands) => instruction(image, chunk, piece, operands, &labels),
            None => raw(piece),
        };
        out.push_str(&format!("  {text}\n"));
    }
    if labels.contains(&chunk.code.len()) {
        out.push_str(&format!("L{}:\n", chunk.code.len()));
    }
    out
}

fn raw(piece: &Piece) -> String {
    let bytes: Vec<String> = piece.bytes.iter().map(|b| format!("{b:02X}")).collect();
    let why = match INSTRUCTIONS.get(piece.bytes[0] as usize) {
        Some((name, _)) => format!("{name}, its operands cut"),
        None => "no instruction".to_string(),
    };
    format!("byte {}    # {why}", bytes.join(" "))
}

fn instruction(
    image: &Image,
    chunk: &Chunk,
    piece: &Piece,
    operands: &[u16],
    labels: &BTreeSet<usize>,
) -> String {
    let name = INSTRUCTIONS[piece.bytes[0] as usize].0;
    match (name, operands) {
        ("Const", &[number]) => {
            let comment = comment(image, chunk, number);
            format!("Const {}{comment}", constant(chunk, number))
        }
        ("BuildClosure", &[number, start]) => {
            let comment = comment(image, chunk, number);
            format!("BuildClosure {} {start}{comment}", constant(chunk, number))
        }
        ("Jump" | "JumpIfFalse" | "Loop", &[distance]) => match destination(piece) {
            Some(to) if labels.contains(&to) => format!("{name} L{to}"),
            Some(to) => format!("{name} {distance}    # to offset {to}"),
            None => format!("{name} {distance}    # before offset 0"),
        },
        ("Cast", &[target]) => match TARGETS.get(target as usize) {
            Some(target) => format!("Cast {target}"),
            None => format!("Cast {target}"),
        },
        ("IsKind", &[kind, of, inner, inner_of]) => {
            let (of, inner_of) = (constant(chunk, of), constant(chunk, inner_of));
            format!(
                "IsKind {} {of} {} {inner_of}",
                kind_name(kind),
                kind_name(inner)
            )
        }
        (name, [operand]) => format!("{name} {operand}"),
        (name, _) => name.to_string(),
    }
}

/// A constant by the name it was declared with, or its number where there is none.
fn constant(chunk: &Chunk, number: u16) -> String {
    match chunk.constants.get(number as usize) {
        Some(_) => format!("c{number}"),
        None => format!("@{number}"),
    }
}

fn comment(image: &Image, chunk: &Chunk, number: u16) -> String {
    match chunk.constants.get(number as usize) {
        Some(constant) => format!("    # {}", shown_constant(image, constant)),
        None => "    # no such constant".to_string(),
    }
}

fn kind_name(code: u16) -> String {
    let mut known = KINDS.iter().chain(&BUILT_KINDS);
    match known.find(|(_, known)| *known as u16 == code) {
        Some((name, _)) => name.to_string(),
        None => code.to_string(),
    }
}
