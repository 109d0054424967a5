//! An image on standard input; the oracle's line on standard output. Exit code 1 means that the
//! model and the published machine differ.
//!
//! `oracle --anyway` asks the published machine without asking the model first and prints what it
//! does, outside the domain too: this is how docs/DIFFERENCES.md knows what it says.

use std::io::{self, Read};
use std::process::ExitCode;

fn main() -> ExitCode {
    oracle::serve_if_child();
    let mut image = Vec::new();
    if let Err(error) = io::stdin().lock().read_to_end(&mut image) {
        eprintln!("oracle: standard input: {error}");
        return ExitCode::from(2);
    }
    let line = match std::env::args().nth(1).as_deref() {
        None => oracle::answer(&image),
        Some("--anyway") => oracle::published_lines(&[image]).remove(0),
        Some(other) => {
            eprintln!("oracle: unknown argument {other}");
            return ExitCode::from(2);
        }
    };
    println!("{line}");
    ExitCode::from(oracle::is_difference(&line) as u8)
}
