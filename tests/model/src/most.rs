//! The mosts: how much there may be of each thing.

pub const IMAGE: usize = 65_536;
pub const TEXTS: usize = 256;
pub const CHUNKS: usize = 64;
pub const CONSTANTS: usize = 256;
pub const CODE: usize = 4_096;
pub const OPERANDS: usize = 256;
pub const LOCALS: usize = 1_024;
pub const SCOPE_STARTS: usize = 256;
pub const FRAMES: usize = 64;
pub const GLOBALS: usize = 256;
pub const CELLS: usize = 4_096;
pub const NESTING: usize = 64;
