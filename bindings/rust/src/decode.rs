//! The value that result bytes stand for (docs/IMAGE.md, "Results"): a kind byte, then what the kind
//! holds, numbers high byte first, then its parts.

use std::fmt;

/// How deep a value of the machine nests at most: a value inside this many others has none inside it.
pub const NESTING: usize = 64;

/// A value, with a case for each kind. A Str and a Function are known by their numbers: the image that
/// was run has the text and the chunk.
#[derive(Debug, Clone, PartialEq)]
pub enum Value {
    Null,
    Int(i64),
    UInt(u64),
    SInt(i32),
    SUInt(u32),
    /// the machine writes every NaN as 7FF8000000000000
    Float(f64),
    /// the machine writes every NaN as 7FC00000
    SFloat(f32),
    Bool(bool),
    /// the number of a text
    Str(u16),
    Char(char),
    Byte(u8),
    SByte(i8),
    BByte(u16),
    BSByte(i16),
    Arr(Vec<Value>),
    Tuple(Vec<Value>),
    /// the number of a chunk
    Function(u16),
    Ok(Box<Value>),
    Error(Box<Value>),
    Err(Box<Value>),
    /// the number of its chunk, its capture start, and its captures
    Closure {
        chunk: u16,
        start: u16,
        captures: Vec<Value>,
    },
}

/// Why bytes are no coded value, and the offset of the first byte to blame.
#[derive(Debug, Clone, Copy, PartialEq, Eq)]
pub enum DecodeError {
    /// the bytes end before the kind, the number or the count that begins here
    Cut { offset: usize },
    /// no kind has this code
    Kind { offset: usize, code: u8 },
    /// a Bool that is neither 0 nor 1
    Bool { offset: usize, byte: u8 },
    /// a Char that is no Unicode scalar
    Char { offset: usize, number: u32 },
    /// a value with parts inside [`NESTING`] others
    Deep { offset: usize },
    /// the value ends here, and the bytes go on
    LeftOver { offset: usize },
}

impl DecodeError {
    pub fn offset(&self) -> usize {
        match *self {
            DecodeError::Cut { offset }
            | DecodeError::Kind { offset, .. }
            | DecodeError::Bool { offset, .. }
            | DecodeError::Char { offset, .. }
            | DecodeError::Deep { offset }
            | DecodeError::LeftOver { offset } => offset,
        }
    }
}

impl fmt::Display for DecodeError {
    fn fmt(&self, f: &mut fmt::Formatter<'_>) -> fmt::Result {
        write!(f, "byte {}: ", self.offset())?;
        match *self {
            DecodeError::Cut { .. } => f.write_str("the bytes end before the value does"),
            DecodeError::Kind { code, .. } => write!(f, "no kind has the code {code}"),
            DecodeError::Bool { byte, .. } => write!(f, "a Bool is 0 or 1, not {byte}"),
            DecodeError::Char { number, .. } => write!(f, "{number:X} is no Unicode scalar"),
            DecodeError::Deep { .. } => write!(f, "a value nests more than {NESTING} deep"),
            DecodeError::LeftOver { .. } => f.write_str("the bytes go on after the value"),
        }
    }
}

impl std::error::Error for DecodeError {}

/// The value that all these bytes stand for: those of a result up to its length.
pub fn decode(bytes: &[u8]) -> Result<Value, DecodeError> {
    let mut reader = Reader { bytes, at: 0 };
    let value = reader.value(0)?;
    match reader.at == bytes.len() {
        true => Ok(value),
        false => Err(DecodeError::LeftOver { offset: reader.at }),
    }
}

struct Reader<'a> {
    bytes: &'a [u8],
    /// how many of them are read
    at: usize,
}

impl Reader<'_> {
    fn take<const N: usize>(&mut self) -> Result<[u8; N], DecodeError> {
        let field = self.bytes[self.at..].first_chunk();
        let field = *field.ok_or(DecodeError::Cut { offset: self.at })?;
        self.at += N;
        Ok(field)
    }

    fn number(&mut self) -> Result<u16, DecodeError> {
        Ok(u16::from_be_bytes(self.take()?))
    }

    fn bool(&mut self) -> Result<bool, DecodeError> {
        let offset = self.at;
        match self.take()? {
            [0] => Ok(false),
            [1] => Ok(true),
            [byte] => Err(DecodeError::Bool { offset, byte }),
        }
    }

    fn char(&mut self) -> Result<char, DecodeError> {
        let offset = self.at;
        let number = u32::from_be_bytes(self.take()?);
        char::from_u32(number).ok_or(DecodeError::Char { offset, number })
    }

    /// A count, and as many parts. Memory is taken part by part: a count that the bytes do not bear out
    /// takes none.
    fn parts(&mut self, depth: usize) -> Result<Vec<Value>, DecodeError> {
        let count = self.number()?;
        (0..count).map(|_| self.value(depth + 1)).collect()
    }

    fn part(&mut self, depth: usize) -> Result<Box<Value>, DecodeError> {
        self.value(depth + 1).map(Box::new)
    }

    /// The value that begins here, inside `depth` others.
    fn value(&mut self, depth: usize) -> Result<Value, DecodeError> {
        let offset = self.at;
        let [code] = self.take()?;
        Ok(match code {
            0 => Value::Null,
            1 => Value::Int(i64::from_be_bytes(self.take()?)),
            2 => Value::UInt(u64::from_be_bytes(self.take()?)),
            3 => Value::SInt(i32::from_be_bytes(self.take()?)),
            4 => Value::SUInt(u32::from_be_bytes(self.take()?)),
            5 => Value::Float(f64::from_be_bytes(self.take()?)),
            6 => Value::SFloat(f32::from_be_bytes(self.take()?)),
            7 => Value::Bool(self.bool()?),
            8 => Value::Str(self.number()?),
            9 => Value::Char(self.char()?),
            10 => Value::Byte(u8::from_be_bytes(self.take()?)),
            11 => Value::SByte(i8::from_be_bytes(self.take()?)),
            12 => Value::BByte(self.number()?),
            13 => Value::BSByte(i16::from_be_bytes(self.take()?)),
            20 => Value::Function(self.number()?),
            14 | 17 | 22..=25 if depth == NESTING => return Err(DecodeError::Deep { offset }),
            14 => Value::Arr(self.parts(depth)?),
            17 => Value::Tuple(self.parts(depth)?),
            22 => Value::Ok(self.part(depth)?),
            23 => Value::Error(self.part(depth)?),
            24 => Value::Err(self.part(depth)?),
            25 => Value::Closure {
                chunk: self.number()?,
                start: self.number()?,
                captures: self.parts(depth)?,
            },
            _ => return Err(DecodeError::Kind { offset, code }),
        })
    }
}

#[cfg(test)]
mod tests {
    use super::*;

    fn boxed(value: Value) -> Box<Value> {
        Box::new(value)
    }

    #[test]
    fn numbers() {
        let cases: [(&[u8], Value); 10] = [
            (&[1, 255, 255, 255, 255, 255, 255, 255, 254], Value::Int(-2)),
            (&[2, 128, 0, 0, 0, 0, 0, 0, 1], Value::UInt((1 << 63) + 1)),
            (&[3, 255, 255, 255, 0], Value::SInt(-256)),
            (&[4, 128, 0, 1, 2], Value::SUInt(0x8000_0102)),
            (&[5, 0xBF, 0xF8, 0, 0, 0, 0, 0, 0], Value::Float(-1.5)),
            (&[6, 0x3E, 0x80, 0, 0], Value::SFloat(0.25)),
            (&[10, 200], Value::Byte(200)),
            (&[11, 200], Value::SByte(-56)),
            (&[12, 200, 1], Value::BByte(51_201)),
            (&[13, 200, 1], Value::BSByte(-14_335)),
        ];
        for (bytes, value) in cases {
            assert_eq!(decode(bytes), Ok(value));
        }
    }

    #[test]
    fn other_kinds() {
        let closure = Value::Closure {
            chunk: 0x0102,
            start: 0x0304,
            captures: vec![Value::Null],
        };
        let cases: [(&[u8], Value); 15] = [
            (&[0], Value::Null),
            (&[7, 0], Value::Bool(false)),
            (&[7, 1], Value::Bool(true)),
            (&[8, 1, 2], Value::Str(0x0102)),
            (&[9, 0, 0x10, 0xFF, 0xFF], Value::Char('\u{10FFFF}')),
            (&[9, 0, 0, 0, 0x41], Value::Char('A')),
            (&[14, 0, 0], Value::Arr(vec![])),
            (&[14, 0, 2, 10, 1, 0], arr_of_two()),
            (&[17, 0, 1, 7, 1], Value::Tuple(vec![Value::Bool(true)])),
            (&[20, 0, 63], Value::Function(63)),
            (&[22, 0], Value::Ok(boxed(Value::Null))),
            (&[23, 10, 9], Value::Error(boxed(Value::Byte(9)))),
            (&[24, 8, 0, 3], Value::Err(boxed(Value::Str(3)))),
            (&[25, 1, 2, 3, 4, 0, 1, 0], closure),
            (&[22, 14, 0, 2, 10, 1, 0], Value::Ok(boxed(arr_of_two()))),
        ];
        for (bytes, value) in cases {
            assert_eq!(decode(bytes), Ok(value));
        }
    }

    fn arr_of_two() -> Value {
        Value::Arr(vec![Value::Byte(1), Value::Null])
    }

    #[test]
    fn floats_without_an_equal() {
        let Ok(Value::Float(nan)) = decode(&[5, 0x7F, 0xF8, 0, 0, 0, 0, 0, 0]) else {
            panic!("a Float");
        };
        assert!(nan.is_nan());
        let Ok(Value::SFloat(nan)) = decode(&[6, 0x7F, 0xC0, 0, 0]) else {
            panic!("an SFloat");
        };
        assert!(nan.is_nan());
        let Ok(Value::Float(zero)) = decode(&[5, 0x80, 0, 0, 0, 0, 0, 0, 0]) else {
            panic!("a Float");
        };
        assert_eq!(zero.to_bits(), 1 << 63);
    }

    /// Each error at the outset, and further in, where the offset is seen.
    #[test]
    fn errors() {
        let cases: [(&[u8], DecodeError); 13] = [
            (&[], DecodeError::Cut { offset: 0 }),
            (&[1, 0, 0, 0, 0, 0, 0, 0], DecodeError::Cut { offset: 1 }),
            (&[22], DecodeError::Cut { offset: 1 }),
            (&[14, 0], DecodeError::Cut { offset: 1 }),
            (&[14, 255, 255, 0], DecodeError::Cut { offset: 4 }),
            (&[25, 0, 1, 0, 2, 0], DecodeError::Cut { offset: 5 }),
            (&[21], kind(0, 21)),
            (&[17, 0, 2, 0, 26], kind(4, 26)),
            (&[24, 7, 2], DecodeError::Bool { offset: 2, byte: 2 }),
            (&[9, 0, 0, 0xD8, 0], char(1, 0xD800)),
            (&[22, 9, 0, 0x11, 0, 0], char(2, 0x11_0000)),
            (&[0, 0], DecodeError::LeftOver { offset: 1 }),
            (&[14, 0, 1, 0, 7], DecodeError::LeftOver { offset: 4 }),
        ];
        for (bytes, error) in cases {
            assert_eq!(decode(bytes), Err(error), "{bytes:?}");
            let start = format!("byte {}: ", error.offset());
            assert!(error.to_string().starts_with(&start));
        }
    }

    fn kind(offset: usize, code: u8) -> DecodeError {
        DecodeError::Kind { offset, code }
    }

    fn char(offset: usize, number: u32) -> DecodeError {
        DecodeError::Char { offset, number }
    }

    /// The codes that no kind has, among them those of kinds that document 01 leaves out.
    #[test]
    fn unknown_kinds() {
        let known = |code: &u8| matches!(code, 0..=14 | 17 | 20 | 22..=25);
        for code in (0..=255).filter(|code| !known(code)) {
            assert_eq!(decode(&[code, 0]), Err(kind(0, code)));
        }
    }

    /// A value of every kind with parts, inside 63 others and inside 64.
    #[test]
    fn nesting() {
        let inner: [&[u8]; 6] = [
            &[14, 0, 0],
            &[17, 0, 0],
            &[22, 0],
            &[23, 0],
            &[24, 0],
            &[25, 0, 0, 0, 0, 0, 0],
        ];
        for inner in inner {
            let deep = [&[22].repeat(NESTING - 1), inner].concat();
            assert!(decode(&deep).is_ok(), "{inner:?}");
            let deeper = [&[22].repeat(NESTING), inner].concat();
            assert_eq!(decode(&deeper), Err(DecodeError::Deep { offset: NESTING }));
        }
        let scalar = [&[22].repeat(NESTING), &[7, 1][..]].concat();
        assert!(decode(&scalar).is_ok());
        let endless = [22].repeat(1_000_000);
        assert_eq!(decode(&endless), Err(DecodeError::Deep { offset: NESTING }));
    }
}
