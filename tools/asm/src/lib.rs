//! Assembly text of one image, and the way back.
//!
//! [`assemble`] turns a text into an image that loads, or says in which line it can't.
//! [`disassemble`] gives a text that assembles to the very same image, for every image that loads.
//! [`read`] turns image lines into their parts. The syntax stands in README.md.

mod assemble;
mod constant;
mod disassemble;
mod read;
mod token;

pub use assemble::assemble;
pub use disassemble::disassemble;
pub use read::read;

/// What is wrong, and in which line from 1 (0 where no single line is to blame).
#[derive(Debug, Clone, PartialEq, Eq)]
pub struct Error {
    pub line: usize,
    pub message: String,
}

impl Error {
    pub(crate) fn new(line: usize, message: impl Into<String>) -> Error {
        Error {
            line,
            message: message.into(),
        }
    }
}

impl std::fmt::Display for Error {
    fn fmt(&self, f: &mut std::fmt::Formatter<'_>) -> std::fmt::Result {
        match self.line {
            0 => write!(f, "{}", self.message),
            line => write!(f, "line {line}: {}", self.message),
        }
    }
}

impl std::error::Error for Error {}

/// The mosts of document 01 that an image has to keep to load.
pub(crate) mod most {
    pub const IMAGE: usize = 65_536;
    pub const TEXTS: usize = 256;
    pub const TEXT: usize = 255;
    pub const CHUNKS: usize = 64;
    pub const CONSTANTS: usize = 256;
    pub const CODE: usize = 4_096;
}

/// The kinds a constant can have, in the order of their codes.
pub(crate) const KINDS: [(&str, u8); 15] = [
    ("Null", 0),
    ("Int", 1),
    ("UInt", 2),
    ("SInt", 3),
    ("SUInt", 4),
    ("Float", 5),
    ("SFloat", 6),
    ("Bool", 7),
    ("Str", 8),
    ("Char", 9),
    ("Byte", 10),
    ("SByte", 11),
    ("BByte", 12),
    ("BSByte", 13),
    ("Function", 20),
];

/// The kinds that no constant has, but that IsKind can ask for.
pub(crate) const BUILT_KINDS: [(&str, u8); 4] =
    [("Arr", 14), ("Tuple", 17), ("Ok", 22), ("Error", 23)];

/// The targets of Cast, by number.
pub(crate) const TARGETS: [&str; 10] = [
    "Int", "Float", "UInt", "SFloat", "SUInt", "SInt", "BByte", "BSByte", "Byte", "SByte",
];
