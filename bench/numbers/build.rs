// Links the proved loops, which `tests/archive number_bench` writes below the repository's root.
use std::path::PathBuf;

fn main() {
    let here = PathBuf::from(std::env::var("CARGO_MANIFEST_DIR").unwrap());
    let archive = here.join("../../target/staticlib");
    println!("cargo:rustc-link-search=native={}", archive.display());
    println!("cargo:rustc-link-lib=static=number_bench");
    println!("cargo:rerun-if-changed={}", archive.join("libnumber_bench.a").display());
}
