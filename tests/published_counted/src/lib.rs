//! The published machine with one line added where an instruction begins, for counts, and with its
//! own assertions on, so that it stops where the unchanged build would read outside its vectors. It
//! shares its stand-ins and the way an image is run with the unchanged build.

use rl_utils::span::Span;
use std::any::Any;
use std::cell::Cell;
use std::panic::{self, AssertUnwindSafe};
use translate::Ending;

pub mod chunk {
    include!("../../../docs/src/crates/rl-vm/src/chunk.rs");
}
#[allow(dead_code)]
pub mod values {
    include!("../../../docs/src/crates/rl-vm/src/values.rs");
}
#[allow(dead_code)]
pub mod vm_logic {
    include!(concat!(env!("OUT_DIR"), "/vm_logic.rs"));
}

#[path = "../../published/src/drive.rs"]
mod drive;
#[path = "../../published/src/native.rs"]
pub mod native;
#[path = "../../published/src/runtime.rs"]
pub mod runtime;

pub use chunk::Chunk;
pub use values::{VmNative, VmValue};

/// The text that is compiled as vm_logic.rs.
pub const COMPILED: &str = include_str!(concat!(env!("OUT_DIR"), "/vm_logic.rs"));
/// The line that it has more than the published one.
pub const COUNTING_LINE: &str = "            crate::count_instruction(chunk!().span_at(ip));\n";

thread_local! {
    static BEGUN: Cell<u64> = const { Cell::new(0) };
}

/// As many instructions as the runner's budget has. A run that goes on after them is given up: it may
/// have no end, and take more and more memory.
pub const MOST_BEGUN: u64 = 1_000_000;

/// What a run is left with when it is given up.
struct GivenUp;

/// What the added line calls, with the place of the instruction that begins. One that has none was
/// put in to lay out code whose instructions overlap, and is none of the image's.
pub(crate) fn count_instruction(place: Span) {
    if place == Span::NOWHERE {
        return;
    }
    if BEGUN.get() == MOST_BEGUN {
        panic::resume_unwind(Box::new(GivenUp));
    }
    BEGUN.set(BEGUN.get() + 1);
}

/// How the messages of the published machine's own assertions begin.
const ASSERTIONS: [&str; 3] = [
    "stack underflow",
    "operand read past end of code",
    "corrupt bytecode: opcode",
];

/// The ending of a run that unwound; any other panic is the machine's own and goes on.
fn unwound(cause: Box<dyn Any + Send>) -> Ending {
    if cause.is::<GivenUp>() {
        return Ending::Endless;
    }
    let text = cause.downcast_ref::<String>().map(String::as_str);
    let text = text.or(cause.downcast_ref::<&str>().copied()).unwrap_or("");
    match ASSERTIONS.iter().find(|a| text.starts_with(**a)) {
        Some(assertion) => Ending::Asserted(assertion),
        None => panic::resume_unwind(cause),
    }
}

/// Runs an image; with it the count of instructions begun.
pub fn run(image: &image::Image, room: usize) -> (Ending, u64) {
    BEGUN.set(0);
    let ending = panic::catch_unwind(AssertUnwindSafe(|| drive::run(image, room)));
    (ending.unwrap_or_else(unwound), BEGUN.get())
}
