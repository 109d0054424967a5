//! From image lines to their parts.

use crate::{Error, most};
use image::{Chunk, Constant, Image};

/// The parts of an image that loads; of any other, the first line with something wrong. The reasons
/// are worded for people and have no numbers: which refusal a machine gives is the machine's to say.
pub fn read(bytes: &[u8]) -> Result<Image, Error> {
    if bytes.len() > most::IMAGE {
        return Err(Error::new(0, "the image is over 65536 bytes"));
    }
    let mut reader = Reader::default();
    let mut rest = bytes;
    let mut line = 0;
    while !rest.is_empty() {
        line += 1;
        if reader.ended {
            return Err(Error::new(line, "something follows the line 05"));
        }
        let Some(end) = rest.iter().position(|&b| b == b'\n') else {
            return Err(Error::new(line, "no line feed"));
        };
        let wrong = |message: String| Error::new(line, message);
        let record = digits(&rest[..end]).map_err(wrong)?;
        reader.record(&record).map_err(wrong)?;
        rest = &rest[end + 1..];
    }
    if !reader.ended {
        return Err(Error::new(0, "no line 05"));
    }
    reader.functions()?;
    Ok(reader.image)
}

fn digits(line: &[u8]) -> Result<Vec<u8>, String> {
    if line.is_empty() || line.len() > 512 || line.len() % 2 == 1 {
        return Err(format!("{} digits", line.len()));
    }
    let value = |b: u8| match b {
        b'0'..=b'9' => Ok(b - b'0'),
        b'A'..=b'F' => Ok(b - b'A' + 10),
        _ => Err(format!("byte {b:02X} is no upper-case hexadecimal digit")),
    };
    let pairs = line.chunks_exact(2);
    pairs
        .map(|pair| Ok(value(pair[0])? * 16 + value(pair[1])?))
        .collect()
}

#[derive(Default)]
struct Reader {
    image: Image,
    /// the open chunk's last code line was shorter than 64 bytes, or the chunk has none yet
    short: bool,
    ended: bool,
}

impl Reader {
    fn record(&mut self, record: &[u8]) -> Result<(), String> {
        let fields = &record[1..];
        match record[0] {
            1 => self.text(fields),
            2 => self.chunk(fields),
            3 => self.constant(fields),
            4 => self.code(fields),
            5 if self.image.chunks.is_empty() => Err("05 with no chunk".to_string()),
            5 if !fields.is_empty() => Err("05 with something after it".to_string()),
            5 => {
                self.ended = true;
                Ok(())
            }
            other => Err(format!("no line begins with {other:02X}")),
        }
    }

    fn text(&mut self, fields: &[u8]) -> Result<(), String> {
        if !self.image.chunks.is_empty() {
            return Err("a text after the first chunk".to_string());
        }
        if !fields.iter().all(|b| (0x20..=0x7E).contains(b)) {
            return Err("a text holds bytes 20 to 7E only".to_string());
        }
        if self.image.texts.len() == most::TEXTS {
            return Err("one text too many".to_string());
        }
        self.image.texts.push(fields.to_vec());
        Ok(())
    }

    fn chunk(&mut self, fields: &[u8]) -> Result<(), String> {
        let &[arity, high, low] = fields else {
            return Err("a chunk has an arity and a name".to_string());
        };
        let name = self.text_number(high, low)?;
        if self.image.chunks.is_empty() && arity != 0 {
            return Err("the top's arity is 0".to_string());
        }
        if self.image.chunks.len() == most::CHUNKS {
            return Err("one chunk too many".to_string());
        }
        self.short = false;
        self.image.chunks.push(Chunk {
            arity,
            name,
            ..Chunk::default()
        });
        Ok(())
    }

    fn text_number(&self, high: u8, low: u8) -> Result<u16, String> {
        let number = u16::from_be_bytes([high, low]);
        match (number as usize) < self.image.texts.len() {
            true => Ok(number),
            false => Err(format!("there is no text {number}")),
        }
    }

    fn constant(&mut self, fields: &[u8]) -> Result<(), String> {
        let number = self.image.chunks.len();
        if number == 0 {
            return Err("a constant before the first chunk".to_string());
        }
        if !self.image.chunks[number - 1].code.is_empty() {
            return Err("a constant after the chunk's code".to_string());
        }
        let constant = payload(fields)?;
        match constant {
            Constant::Str(text) => {
                self.text_number((text >> 8) as u8, text as u8)?;
            }
            Constant::Function(to) if (to as usize) < number => {
                return Err("a Function names a chunk above its own".to_string());
            }
            _ => {}
        }
        let constants = &mut self.image.chunks[number - 1].constants;
        if constants.len() == most::CONSTANTS {
            return Err("one constant too many".to_string());
        }
        constants.push(constant);
        Ok(())
    }

    fn code(&mut self, fields: &[u8]) -> Result<(), String> {
        let Some(chunk) = self.image.chunks.last_mut() else {
            return Err("code before the first chunk".to_string());
        };
        if self.short {
            return Err("code after a line of fewer than 64 bytes".to_string());
        }
        if fields.is_empty() || fields.len() > 64 {
            return Err("a code line has 1 to 64 bytes".to_string());
        }
        if chunk.code.len() + fields.len() > most::CODE {
            return Err("over 4096 bytes of code".to_string());
        }
        chunk.code.extend_from_slice(fields);
        self.short = fields.len() < 64;
        Ok(())
    }

    fn functions(&self) -> Result<(), Error> {
        let chunks = self.image.chunks.len();
        let constants = self.image.chunks.iter().flat_map(|c| &c.constants);
        for constant in constants {
            if let Constant::Function(to) = constant
                && *to as usize >= chunks
            {
                let message = format!("a Function names chunk {to}, which never comes");
                return Err(Error::new(0, message));
            }
        }
        Ok(())
    }
}

/// A constant from its kind and payload.
fn payload(fields: &[u8]) -> Result<Constant, String> {
    let Some((&kind, bytes)) = fields.split_first() else {
        return Err("a constant without a kind".to_string());
    };
    let number = bytes.iter().fold(0u64, |n, &b| n << 8 | b as u64);
    let constant = match (kind, bytes.len()) {
        (0, 0) => Constant::Null,
        (1, 8) => Constant::Int(number as i64),
        (2, 8) => Constant::UInt(number),
        (3, 4) => Constant::SInt(number as i32),
        (4, 4) => Constant::SUInt(number as u32),
        (5, 8) => Constant::Float(number),
        (6, 4) => Constant::SFloat(number as u32),
        (7, 1) if number < 2 => Constant::Bool(number == 1),
        (8, 2) => Constant::Str(number as u16),
        (9, 4) if char::from_u32(number as u32).is_some() => Constant::Char(number as u32),
        (10, 1) => Constant::Byte(number as u8),
        (11, 1) => Constant::SByte(number as i8),
        (12, 2) => Constant::BByte(number as u16),
        (13, 2) => Constant::BSByte(number as i16),
        (20, 2) => Constant::Function(number as u16),
        (kind, length) => {
            return Err(format!(
                "no constant has kind {kind} and this payload of {length} bytes"
            ));
        }
    };
    Ok(constant)
}
