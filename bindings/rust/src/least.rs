//! The least length of each work slice, in elements. A shorter slice is refused with 9; longer ones are
//! fine. docs/OPERATIONS.md says where each number comes from.

pub const BYTES: usize = 32_768;
pub const ENDS: usize = 256;
pub const KINDS: usize = 13_107;
pub const PAYLOADS: usize = 13_107;
pub const TABLE: usize = 260;
pub const HEIGHTS: usize = 4_096;
pub const DEPTHS: usize = 4_096;
pub const TODO: usize = 4_096;
pub const TEXTS: usize = 257;
pub const CLASSES: usize = 65;
pub const STACK: usize = 512;
pub const LOCALS: usize = 2_048;
pub const STARTS: usize = 256;
pub const GLOBALS: usize = 512;
pub const CELLS: usize = 8_192;
pub const MEMO: usize = 4_096;
