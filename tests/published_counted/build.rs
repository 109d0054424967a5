//! Writes the published vm_logic.rs with one line more, where an instruction begins.

use std::{env, fs, path::Path};

const FILE: &str = "../../docs/src/crates/rl-vm/src/vm_logic.rs";
/// The line after which an instruction has begun: the code's end has been ruled out, its byte is read.
const BEGINS: &str = "            let op = unsafe { OpCode::from_u8_unchecked(";
const COUNTING: &str = "            crate::count_instruction(chunk!().span_at(ip));\n";

fn main() {
    println!("cargo::rerun-if-changed={FILE}");
    println!("cargo::rerun-if-changed=build.rs");
    let text = fs::read_to_string(FILE).expect("the published vm_logic.rs");
    let mut out = String::with_capacity(text.len() + COUNTING.len());
    let mut added = 0;
    for line in text.split_inclusive('\n') {
        out.push_str(line);
        if line.starts_with(BEGINS) {
            out.push_str(COUNTING);
            added += 1;
        }
    }
    assert_eq!(added, 1, "one place where an instruction begins");
    let dir = env::var("OUT_DIR").expect("cargo sets it");
    fs::write(Path::new(&dir).join("vm_logic.rs"), out).expect("to write into OUT_DIR");
}
