//! The published machine, compiled from `docs/src` unchanged, and a run of an image on it. What its
//! files import is stood in for by the packages under `standins` and the two small modules here.

/// The path of a published file. Naming it once makes sure that the bytes that are compared in the
/// tests are the ones that are compiled.
macro_rules! published {
    ("chunk.rs") => {
        "../../../docs/src/crates/rl-vm/src/chunk.rs"
    };
    ("values.rs") => {
        "../../../docs/src/crates/rl-vm/src/values.rs"
    };
    ("vm_logic.rs") => {
        "../../../docs/src/crates/rl-vm/src/vm_logic.rs"
    };
}

// `include!` and not `#[path]`: the formatter follows the second and would change the files.
pub mod chunk {
    include!(published!("chunk.rs"));
}
#[allow(dead_code)]
pub mod values {
    include!(published!("values.rs"));
}
#[allow(dead_code)]
pub mod vm_logic {
    include!(published!("vm_logic.rs"));
}

mod drive;
pub mod native;
pub mod runtime;

pub use chunk::Chunk;
pub use drive::Built;
pub use values::{VmNative, VmValue};

/// The bytes that are compiled as `chunk.rs`, `values.rs` and `vm_logic.rs`.
pub const COMPILED: [(&str, &[u8]); 3] = [
    ("chunk.rs", include_bytes!(published!("chunk.rs"))),
    ("values.rs", include_bytes!(published!("values.rs"))),
    ("vm_logic.rs", include_bytes!(published!("vm_logic.rs"))),
];

pub use translate::Ending;

/// The bytes of result that a run has room for, as the runner's.
pub const ROOM: usize = 4096;

/// How a run ended on the published machine, and how many instructions began in it.
#[derive(Debug, Clone, PartialEq, Eq)]
pub struct Outcome {
    pub ending: Ending,
    pub count: u64,
}

/// Runs an image on the published machine: the ending comes from the unchanged build, the count from
/// the build with the counting line, which has to end in the same way. That build goes first and has
/// the machine's own assertions on, so a run that fails one, or has no end, stays there. The image
/// has to be one that loads. A run outside document 01's domain may panic or read outside the
/// machine's constants, and a comparison or a message may take longer than anyone waits: do that in a
/// process that can be given up.
pub fn run(image: &image::Image) -> Outcome {
    let (counted, count) = published_counted::run(image, ROOM);
    if matches!(counted, Ending::Endless | Ending::Asserted(_)) {
        let ending = counted;
        return Outcome { ending, count };
    }
    let ending = drive::run(image, ROOM);
    assert_eq!(ending, counted, "the counting line changed the answer");
    Outcome { ending, count }
}
