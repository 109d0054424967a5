//! An image as its parts, the instructions of document 01 by number and name, and the way from the
//! parts to image lines. Nothing here judges an image: any parts can be written, also ones that no
//! machine loads.

/// A constant of a chunk. Floats are kept as their bits, so that a signalling NaN stays one.
#[derive(Debug, Clone, Copy, PartialEq, Eq)]
pub enum Constant {
    Null,
    Int(i64),
    UInt(u64),
    SInt(i32),
    SUInt(u32),
    Float(u64),
    SFloat(u32),
    Bool(bool),
    /// the number of its text
    Str(u16),
    /// a Unicode scalar
    Char(u32),
    Byte(u8),
    SByte(i8),
    BByte(u16),
    BSByte(i16),
    /// the number of its chunk
    Function(u16),
}

#[derive(Debug, Clone, Default, PartialEq, Eq)]
pub struct Chunk {
    pub arity: u8,
    /// the number of its name's text
    pub name: u16,
    pub constants: Vec<Constant>,
    pub code: Vec<u8>,
}

#[derive(Debug, Clone, Default, PartialEq, Eq)]
pub struct Image {
    pub texts: Vec<Vec<u8>>,
    pub chunks: Vec<Chunk>,
}

/// The instructions in document 01's order: `INSTRUCTIONS[n]` is instruction `n`, its name and how
/// many operands of two bytes follow it.
pub const INSTRUCTIONS: [(&str, usize); 38] = [
    ("Const", 1),
    ("Add", 0),
    ("Sub", 0),
    ("Mul", 0),
    ("Div", 0),
    ("Negate", 0),
    ("Not", 0),
    ("Eq", 0),
    ("NotEq", 0),
    ("Less", 0),
    ("LessEq", 0),
    ("Greater", 0),
    ("GreaterEq", 0),
    ("GetLocal", 1),
    ("SetLocal", 1),
    ("GetGlobal", 1),
    ("SetGlobal", 1),
    ("DefineLocal", 1),
    ("Pop", 0),
    ("Return", 0),
    ("PushScope", 0),
    ("PopScope", 0),
    ("Jump", 1),
    ("JumpIfFalse", 1),
    ("Loop", 1),
    ("Call", 1),
    ("Ok", 0),
    ("Err", 0),
    ("Propagate", 0),
    ("Error", 0),
    ("BuildArr", 1),
    ("BuildTuple", 1),
    ("Index", 0),
    ("ArrLen", 0),
    ("ArrSet", 0),
    ("BuildClosure", 2),
    ("Cast", 1),
    ("IsKind", 4),
];

/// The number of an instruction by its name, for writing code by hand: `op("Add")`.
pub fn op(name: &str) -> u8 {
    let found = INSTRUCTIONS.iter().position(|(n, _)| *n == name);
    found.unwrap_or_else(|| panic!("no instruction is called {name}")) as u8
}

impl Constant {
    /// The kind's code in document 01.
    pub fn kind(&self) -> u8 {
        match self {
            Constant::Null => 0,
            Constant::Int(_) => 1,
            Constant::UInt(_) => 2,
            Constant::SInt(_) => 3,
            Constant::SUInt(_) => 4,
            Constant::Float(_) => 5,
            Constant::SFloat(_) => 6,
            Constant::Bool(_) => 7,
            Constant::Str(_) => 8,
            Constant::Char(_) => 9,
            Constant::Byte(_) => 10,
            Constant::SByte(_) => 11,
            Constant::BByte(_) => 12,
            Constant::BSByte(_) => 13,
            Constant::Function(_) => 20,
        }
    }

    /// The payload's bytes, high byte first.
    pub fn payload(&self) -> Vec<u8> {
        match *self {
            Constant::Null => vec![],
            Constant::Int(n) => n.to_be_bytes().to_vec(),
            Constant::UInt(n) => n.to_be_bytes().to_vec(),
            Constant::SInt(n) => n.to_be_bytes().to_vec(),
            Constant::SUInt(n) => n.to_be_bytes().to_vec(),
            Constant::Float(bits) => bits.to_be_bytes().to_vec(),
            Constant::SFloat(bits) => bits.to_be_bytes().to_vec(),
            Constant::Bool(b) => vec![b as u8],
            Constant::Str(text) => text.to_be_bytes().to_vec(),
            Constant::Char(scalar) => scalar.to_be_bytes().to_vec(),
            Constant::Byte(n) => vec![n],
            Constant::SByte(n) => vec![n as u8],
            Constant::BByte(n) => n.to_be_bytes().to_vec(),
            Constant::BSByte(n) => n.to_be_bytes().to_vec(),
            Constant::Function(chunk) => chunk.to_be_bytes().to_vec(),
        }
    }
}

/// One image line: the record's first byte and its fields, in upper-case hexadecimal, and a line feed.
pub fn line(first: u8, fields: &[u8]) -> String {
    let digit = |n: u8| b"0123456789ABCDEF"[n as usize] as char;
    let mut text = String::with_capacity(2 * fields.len() + 3);
    for byte in std::iter::once(&first).chain(fields) {
        text.push(digit(byte >> 4));
        text.push(digit(byte & 15));
    }
    text.push('\n');
    text
}

impl Chunk {
    /// Appends an instruction with its operands, high byte first.
    pub fn emit(&mut self, name: &str, operands: &[u16]) {
        self.code.push(op(name));
        for operand in operands {
            self.code.extend_from_slice(&operand.to_be_bytes());
        }
    }
}

impl Image {
    /// The image lines.
    pub fn lines(&self) -> String {
        let mut out = String::new();
        for text in &self.texts {
            out.push_str(&line(1, text));
        }
        for chunk in &self.chunks {
            let name = chunk.name.to_be_bytes();
            out.push_str(&line(2, &[chunk.arity, name[0], name[1]]));
            for constant in &chunk.constants {
                let mut fields = vec![constant.kind()];
                fields.extend(constant.payload());
                out.push_str(&line(3, &fields));
            }
            for part in chunk.code.chunks(64) {
                out.push_str(&line(4, part));
            }
        }
        out.push_str(&line(5, &[]));
        out
    }
}

#[cfg(test)]
mod tests {
    use super::*;

    #[test]
    fn worked_image() {
        let mut top = Chunk {
            constants: vec![Constant::Int(2), Constant::Int(3)],
            ..Chunk::default()
        };
        top.emit("Const", &[0]);
        top.emit("Const", &[1]);
        top.emit("Add", &[]);
        top.emit("Return", &[]);
        let image = Image {
            texts: vec![b"top".to_vec()],
            chunks: vec![top],
        };
        assert_eq!(
            image.lines(),
            "01746F70\n02000000\n03010000000000000002\n03010000000000000003\n040000000000010113\n05\n"
        );
    }
}
