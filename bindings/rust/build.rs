//! Links the proved machine: the archive that RL_VM_ARCHIVE names, or else the one that
//! `tests/archive` puts in target/staticlib/.

use std::path::{Path, PathBuf};

const NAMED: &str = "RL_VM_ARCHIVE";

fn main() {
    println!("cargo::rerun-if-env-changed={NAMED}");
    println!("cargo::rerun-if-changed=build.rs");
    let archive = archive();
    println!("cargo::rerun-if-changed={}", archive.display());
    if let Err(message) = link(&archive) {
        println!("cargo::error={message}");
    }
}

fn archive() -> PathBuf {
    let here = PathBuf::from(std::env::var_os("CARGO_MANIFEST_DIR").expect("cargo sets it"));
    match std::env::var_os(NAMED) {
        Some(named) => PathBuf::from(named),
        None => here.join("../../target/staticlib/librl_vm.a"),
    }
}

/// The path is absolute, because the linker works in another folder than this program.
fn link(archive: &Path) -> Result<(), String> {
    if !archive.is_absolute() {
        return Err(format!("{NAMED} has to be an absolute path"));
    }
    if !archive.is_file() {
        return Err(format!(
            "the machine's archive is missing: run `tests/archive` first, or name one in {NAMED}"
        ));
    }
    let folder = archive.parent().ok_or("a file is in a folder")?;
    let name = archive.file_name().ok_or("a file has a name")?;
    println!("cargo::rustc-link-search=native={}", folder.display());
    println!("cargo::rustc-link-lib=static:+verbatim={}", name.display());
    Ok(())
}
