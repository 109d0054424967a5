//! Load: image lines to an image, or the refusal. A line is judged by rule after rule, lowest number
//! first; the first line at fault decides.

use crate::most;
use image::{Chunk, Constant, Image};
use std::fmt;

/// Why an image does not load: the number and the line, from 1; line 0 where no line is to blame.
#[derive(Debug, Clone, Copy, PartialEq, Eq)]
pub struct Refusal {
    pub number: u8,
    pub line: usize,
}

impl fmt::Display for Refusal {
    fn fmt(&self, f: &mut fmt::Formatter<'_>) -> fmt::Result {
        write!(f, "refused {} {}", self.number, self.line)
    }
}

/// What stands so far.
#[derive(Default)]
struct Loader {
    image: Image,
    /// a code line of the open chunk has been seen
    in_code: bool,
    /// one shorter than 64 bytes has, so that no other may come
    code_done: bool,
    ended: bool,
}

/// Loads an image, or refuses it with 1 to 7.
pub fn load(bytes: &[u8]) -> Result<Image, Refusal> {
    if bytes.len() > most::IMAGE {
        return Err(Refusal { number: 1, line: 0 });
    }
    let mut loader = Loader::default();
    let mut rest = bytes;
    let mut line = 0;
    while !loader.ended && !rest.is_empty() {
        line += 1;
        let (digits, after) = split_line(rest);
        let record = digits.and_then(read_digits);
        let taken = record.ok_or(2).and_then(|record| loader.take(&record));
        taken.map_err(|number| Refusal { number, line })?;
        rest = after;
    }
    if !loader.ended || !rest.is_empty() {
        return Err(Refusal { number: 6, line: 0 });
    }
    if names_missing_chunk(&loader.image) {
        return Err(Refusal { number: 7, line: 0 });
    }
    Ok(loader.image)
}

/// The digits of the first line, if it has its line feed, and what comes after it.
fn split_line(bytes: &[u8]) -> (Option<&[u8]>, &[u8]) {
    match bytes.iter().position(|b| *b == b'\n') {
        Some(end) => (Some(&bytes[..end]), &bytes[end + 1..]),
        None => (None, &[]),
    }
}

/// The bytes that the digits spell; none for a line that rule 2 refuses.
fn read_digits(digits: &[u8]) -> Option<Vec<u8>> {
    if digits.is_empty() || !digits.len().is_multiple_of(2) || digits.len() > 512 {
        return None;
    }
    let value = |digit: u8| match digit {
        b'0'..=b'9' => Some(digit - b'0'),
        b'A'..=b'F' => Some(digit - b'A' + 10),
        _ => None,
    };
    let pairs = digits.chunks(2);
    pairs
        .map(|pair| Some(16 * value(pair[0])? + value(pair[1])?))
        .collect()
}

fn names_missing_chunk(image: &Image) -> bool {
    let chunks = image.chunks.len();
    let missing = |c: &Constant| matches!(c, Constant::Function(n) if *n as usize >= chunks);
    image.chunks.iter().any(|c| c.constants.iter().any(missing))
}

impl Loader {
    /// Takes one record, or says by which rule it is at fault.
    fn take(&mut self, record: &[u8]) -> Result<(), u8> {
        let fields = &record[1..];
        if !self.in_order(record[0]) {
            return Err(3);
        }
        match record[0] {
            1 => self.take_text(fields),
            2 => self.take_chunk(fields),
            3 => self.take_constant(fields),
            4 => self.take_code(fields),
            _ => self.take_end(fields),
        }
    }

    fn in_order(&self, first: u8) -> bool {
        let in_chunk = !self.image.chunks.is_empty();
        match first {
            1 => !in_chunk,
            2 => true,
            3 => in_chunk && !self.in_code,
            4 => in_chunk && !self.code_done,
            5 => in_chunk,
            _ => false,
        }
    }

    fn take_text(&mut self, fields: &[u8]) -> Result<(), u8> {
        if fields.len() > 255 || !fields.iter().all(|b| (0x20..=0x7E).contains(b)) {
            return Err(4);
        }
        if self.image.texts.len() == most::TEXTS {
            return Err(5);
        }
        self.image.texts.push(fields.to_vec());
        Ok(())
    }

    fn take_chunk(&mut self, fields: &[u8]) -> Result<(), u8> {
        let [arity, high, low] = *fields else {
            return Err(4);
        };
        let name = u16::from_be_bytes([high, low]);
        let is_top = self.image.chunks.is_empty();
        if name as usize >= self.image.texts.len() || (is_top && arity != 0) {
            return Err(4);
        }
        if self.image.chunks.len() == most::CHUNKS {
            return Err(5);
        }
        self.image.chunks.push(Chunk {
            arity,
            name,
            ..Chunk::default()
        });
        self.in_code = false;
        self.code_done = false;
        Ok(())
    }

    fn take_constant(&mut self, fields: &[u8]) -> Result<(), u8> {
        let (kind, payload) = fields.split_first().ok_or(4)?;
        let constant = self.constant(*kind, payload).ok_or(4)?;
        let constants = &mut self.image.chunks.last_mut().expect("in order").constants;
        if constants.len() == most::CONSTANTS {
            return Err(5);
        }
        constants.push(constant);
        Ok(())
    }

    /// The constant, if its kind is listed and its payload keeps the kind's rule.
    fn constant(&self, kind: u8, payload: &[u8]) -> Option<Constant> {
        Some(match kind {
            0 => {
                let [] = own(payload)?;
                Constant::Null
            }
            1 => Constant::Int(i64::from_be_bytes(own(payload)?)),
            2 => Constant::UInt(u64::from_be_bytes(own(payload)?)),
            3 => Constant::SInt(i32::from_be_bytes(own(payload)?)),
            4 => Constant::SUInt(u32::from_be_bytes(own(payload)?)),
            5 => Constant::Float(u64::from_be_bytes(own(payload)?)),
            6 => Constant::SFloat(u32::from_be_bytes(own(payload)?)),
            7 => Constant::Bool(match own(payload)? {
                [0] => false,
                [1] => true,
                _ => return None,
            }),
            8 => Constant::Str(self.text(u16::from_be_bytes(own(payload)?))?),
            9 => Constant::Char(scalar(u32::from_be_bytes(own(payload)?))?),
            10 => Constant::Byte(u8::from_be_bytes(own(payload)?)),
            11 => Constant::SByte(i8::from_be_bytes(own(payload)?)),
            12 => Constant::BByte(u16::from_be_bytes(own(payload)?)),
            13 => Constant::BSByte(i16::from_be_bytes(own(payload)?)),
            20 => Constant::Function(self.above(u16::from_be_bytes(own(payload)?))?),
            _ => return None,
        })
    }

    fn text(&self, number: u16) -> Option<u16> {
        ((number as usize) < self.image.texts.len()).then_some(number)
    }

    /// A chunk number above that of the open chunk. Whether such a chunk comes is judged at the end.
    fn above(&self, number: u16) -> Option<u16> {
        (number as usize >= self.image.chunks.len()).then_some(number)
    }

    fn take_code(&mut self, fields: &[u8]) -> Result<(), u8> {
        if fields.is_empty() || fields.len() > 64 {
            return Err(4);
        }
        let code = &mut self.image.chunks.last_mut().expect("in order").code;
        if code.len() + fields.len() > most::CODE {
            return Err(5);
        }
        code.extend_from_slice(fields);
        self.in_code = true;
        self.code_done = fields.len() < 64;
        Ok(())
    }

    fn take_end(&mut self, fields: &[u8]) -> Result<(), u8> {
        if !fields.is_empty() {
            return Err(4);
        }
        self.ended = true;
        Ok(())
    }
}

/// The payload, if it has just the width that is asked for.
fn own<const N: usize>(payload: &[u8]) -> Option<[u8; N]> {
    payload.try_into().ok()
}

fn scalar(number: u32) -> Option<u32> {
    let surrogate = (0xD800..0xE000).contains(&number);
    (number < 0x11_0000 && !surrogate).then_some(number)
}
