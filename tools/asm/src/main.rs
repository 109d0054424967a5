//! `rl-asm asm [FILE]` and `rl-asm dis [FILE]`: assembly text to image lines and back.

use std::io::{Read, Write};
use std::process::ExitCode;

const USAGE: &str = "rl-asm asm [FILE]   assembly text to image lines
rl-asm dis [FILE]   image lines to assembly text
Without FILE, standard input is read. The syntax stands in tools/asm/README.md.";

/// One text to the other, or what is wrong with it.
type Convert = fn(&[u8]) -> Result<String, String>;

fn main() -> ExitCode {
    let words: Vec<String> = std::env::args().skip(1).collect();
    let words: Vec<&str> = words.iter().map(String::as_str).collect();
    let (convert, file): (Convert, _) = match words[..] {
        ["asm"] => (assembled, None),
        ["asm", file] => (assembled, Some(file)),
        ["dis"] => (disassembled, None),
        ["dis", file] => (disassembled, Some(file)),
        ["--help" | "-h"] => {
            let _ = writeln!(std::io::stdout(), "{USAGE}");
            return ExitCode::SUCCESS;
        }
        _ => {
            eprintln!("{USAGE}");
            return ExitCode::from(2);
        }
    };
    let name = file.unwrap_or("standard input");
    let result = input(file)
        .map_err(|e| e.to_string())
        .and_then(|bytes| convert(&bytes));
    match result {
        Ok(text) => match std::io::stdout().write_all(text.as_bytes()) {
            Ok(()) => ExitCode::SUCCESS,
            Err(_) => ExitCode::FAILURE,
        },
        Err(message) => {
            eprintln!("{name}: {message}");
            ExitCode::FAILURE
        }
    }
}

fn input(file: Option<&str>) -> std::io::Result<Vec<u8>> {
    match file {
        Some(file) => std::fs::read(file),
        None => {
            let mut bytes = Vec::new();
            std::io::stdin().read_to_end(&mut bytes)?;
            Ok(bytes)
        }
    }
}

fn assembled(bytes: &[u8]) -> Result<String, String> {
    let text = std::str::from_utf8(bytes).map_err(|_| "the text is not UTF-8".to_string())?;
    let image = asm::assemble(text).map_err(|e| e.to_string())?;
    Ok(image.lines())
}

fn disassembled(bytes: &[u8]) -> Result<String, String> {
    let image = asm::read(bytes).map_err(|e| e.to_string())?;
    Ok(asm::disassemble(&image))
}
