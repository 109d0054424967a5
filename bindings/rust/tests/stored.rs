//! The decoder on every value of the stored lists (tests/stored): each is decoded, and the value's coding
//! is the bytes again. And on bytes near those: whatever is decoded has those bytes for its coding.

use rl_vm::{Value, decode};
use std::collections::BTreeSet;
use std::path::Path;

/// Appends a value's coding, written down from docs/IMAGE.md.
fn code(value: &Value, out: &mut Vec<u8>) {
    out.push(kind(value));
    match value {
        Value::Null => {}
        Value::Int(n) => out.extend(n.to_be_bytes()),
        Value::UInt(n) => out.extend(n.to_be_bytes()),
        Value::SInt(n) => out.extend(n.to_be_bytes()),
        Value::SUInt(n) => out.extend(n.to_be_bytes()),
        Value::Float(x) => out.extend(x.to_bits().to_be_bytes()),
        Value::SFloat(x) => out.extend(x.to_bits().to_be_bytes()),
        Value::Bool(b) => out.push(*b as u8),
        Value::Char(c) => out.extend(u32::from(*c).to_be_bytes()),
        Value::Byte(n) => out.push(*n),
        Value::SByte(n) => out.push(*n as u8),
        Value::BSByte(n) => out.extend(n.to_be_bytes()),
        Value::Str(n) | Value::BByte(n) | Value::Function(n) => out.extend(n.to_be_bytes()),
        Value::Arr(parts) | Value::Tuple(parts) => code_parts(parts, out),
        Value::Ok(part) | Value::Error(part) | Value::Err(part) => code(part, out),
        Value::Closure {
            chunk,
            start,
            captures,
        } => {
            out.extend(chunk.to_be_bytes());
            out.extend(start.to_be_bytes());
            code_parts(captures, out);
        }
    }
}

fn code_parts(parts: &[Value], out: &mut Vec<u8>) {
    out.extend((parts.len() as u16).to_be_bytes());
    for part in parts {
        code(part, out);
    }
}

fn kind(value: &Value) -> u8 {
    match value {
        Value::Null => 0,
        Value::Int(_) => 1,
        Value::UInt(_) => 2,
        Value::SInt(_) => 3,
        Value::SUInt(_) => 4,
        Value::Float(_) => 5,
        Value::SFloat(_) => 6,
        Value::Bool(_) => 7,
        Value::Str(_) => 8,
        Value::Char(_) => 9,
        Value::Byte(_) => 10,
        Value::SByte(_) => 11,
        Value::BByte(_) => 12,
        Value::BSByte(_) => 13,
        Value::Arr(_) => 14,
        Value::Tuple(_) => 17,
        Value::Function(_) => 20,
        Value::Ok(_) => 22,
        Value::Error(_) => 23,
        Value::Err(_) => 24,
        Value::Closure { .. } => 25,
    }
}

fn coded(value: &Value) -> Vec<u8> {
    let mut out = Vec::new();
    code(value, &mut out);
    out
}

/// The bytes of each `= value COUNT HEX` line of a list.
fn values(list: &str) -> Vec<Vec<u8>> {
    let folder = Path::new(env!("CARGO_MANIFEST_DIR")).join("../../tests/stored");
    let text = std::fs::read_to_string(folder.join(list)).expect("a stored list");
    let lines = text
        .lines()
        .filter_map(|line| line.strip_prefix("= value "));
    let byte = |hex: &[u8]| {
        let digits = std::str::from_utf8(hex).expect("digits");
        u8::from_str_radix(digits, 16).expect("digits")
    };
    let bytes = |line: &str| {
        let (_, hex) = line.split_once(' ').expect("a count and a value");
        hex.as_bytes().chunks(2).map(byte).collect()
    };
    lines.map(bytes).collect()
}

fn all_values() -> Vec<Vec<u8>> {
    let lists = ["cases.txt", "outside.txt"];
    lists.into_iter().flat_map(values).collect()
}

#[test]
fn there_and_back() {
    let mut kinds = BTreeSet::new();
    let values = all_values();
    for bytes in &values {
        let value = decode(bytes).unwrap_or_else(|error| panic!("{bytes:02X?}: {error}"));
        assert_eq!(&coded(&value), bytes, "{value:?}");
        kinds.insert(kind(&value));
    }
    assert!(values.len() > 1_000, "{} values", values.len());
    assert_eq!(kinds.len(), 21, "a value of each kind");
}

/// A cut value is an error at or before the cut, and one byte more is left over.
#[test]
fn cut_and_left_over() {
    for bytes in all_values() {
        let cuts = (0..bytes.len()).rev().take(20);
        for length in cuts {
            let error = decode(&bytes[..length]).expect_err("it is cut");
            assert!(error.offset() <= length);
        }
        let longer = [&bytes[..], &[0]].concat();
        let error = decode(&longer).expect_err("it is longer");
        assert_eq!(error.offset(), bytes.len());
    }
}

/// Each byte of the stored values changed a little, as long as the values are short.
#[test]
fn changed_bytes() {
    let (mut decoded, mut refused) = (0, 0);
    for mut bytes in all_values().into_iter().filter(|bytes| bytes.len() < 200) {
        for at in 0..bytes.len() {
            for change in [0x01, 0x02, 0x08, 0x10, 0x80, 0xFF] {
                bytes[at] ^= change;
                match decode(&bytes) {
                    Ok(value) => {
                        assert_eq!(coded(&value), bytes);
                        decoded += 1;
                    }
                    Err(error) => {
                        assert!(error.offset() <= bytes.len());
                        refused += 1;
                    }
                }
                bytes[at] ^= change;
            }
        }
    }
    assert!(decoded > 1_000 && refused > 1_000, "{decoded}, {refused}");
}
