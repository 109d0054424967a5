// The archive that `tests/archive image_bench` puts in target/staticlib/.
fn main() {
    let here = std::env::var("CARGO_MANIFEST_DIR").unwrap();
    println!("cargo:rustc-link-search=native={here}/../../target/staticlib");
    println!("cargo:rustc-link-lib=static=image_bench");
    println!("cargo:rerun-if-changed={here}/../../target/staticlib/libimage_bench.a");
}
