//! Checks an image, runs it and prints its value. In this package's folder:
//! `cargo run --example sheet -- ../../sheets/curve.img`

use rl_vm::{CheckAnswer, RunAnswer, Value, check, decode, run};
use std::process::ExitCode;

/// The most instructions that a run may take, and the most bytes of its coded value.
const BUDGET: usize = 1_000_000;
const ROOM: usize = 4_096;

fn main() -> ExitCode {
    let Some(file) = std::env::args_os().nth(1) else {
        eprintln!("sheet FILE");
        return ExitCode::from(2);
    };
    let image = std::fs::read(&file).map_err(|error| error.to_string());
    match image.and_then(|image| value(&image)) {
        Ok(value) => {
            println!("{value:?}");
            ExitCode::SUCCESS
        }
        Err(message) => {
            eprintln!("{}: {message}", file.display());
            ExitCode::FAILURE
        }
    }
}

/// The value of an image that passes the check, or why there is none.
fn value(image: &[u8]) -> Result<Value, String> {
    match check(image) {
        CheckAnswer::Pass => {}
        answer => return Err(format!("the check answers {answer:?}")),
    }
    let mut result = [0; ROOM];
    match run(image, BUDGET, &mut result) {
        RunAnswer::Value { length, .. } => {
            decode(&result[..length]).map_err(|error| error.to_string())
        }
        answer => Err(format!("the run answers {answer:?}")),
    }
}
