//! `generate KIND SEED COUNT [FOLDER]` writes test images one after another, or each into a file of
//! its own; `generate statistics KIND SEED COUNT` says what their runs meet.

use generate::statistics::Statistics;
use generate::{FIXED, SEEDED, fixed, seeded};
use std::io::Write;
use std::path::Path;
use std::process::ExitCode;

fn main() -> ExitCode {
    let words: Vec<String> = std::env::args().skip(1).collect();
    let words: Vec<&str> = words.iter().map(String::as_str).collect();
    let done = match words[..] {
        ["statistics", kind, seed, count] => images(kind, seed, count).and_then(|images| {
            let mut statistics = Statistics::default();
            images.iter().for_each(|image| statistics.add(image));
            print(statistics.to_string().as_bytes())
        }),
        [kind, seed, count] => images(kind, seed, count).and_then(|images| print(&images.concat())),
        [kind, seed, count, folder] => {
            images(kind, seed, count).and_then(|images| write(kind, seed, &images, folder))
        }
        _ => Err(usage()),
    };
    match done {
        Ok(()) => ExitCode::SUCCESS,
        Err(message) => {
            eprintln!("{message}");
            ExitCode::FAILURE
        }
    }
}

fn print(bytes: &[u8]) -> Result<(), String> {
    let written = std::io::stdout().lock().write_all(bytes);
    written.map_err(|error| error.to_string())
}

fn usage() -> String {
    let (seeded, fixed) = (SEEDED.join(", "), FIXED.join(", "));
    format!(
        "generate KIND SEED COUNT [FOLDER]\ngenerate statistics KIND SEED COUNT
KIND with a seed: {seeded}\nKIND that is a fixed list, of which the first COUNT are taken: {fixed}"
    )
}

fn images(kind: &str, seed: &str, count: &str) -> Result<Vec<Vec<u8>>, String> {
    let seed: u64 = seed.parse().map_err(|_| usage())?;
    let count: u64 = count.parse().map_err(|_| usage())?;
    if let Some(cases) = fixed(kind) {
        let bytes = cases.into_iter().map(|case| case.bytes);
        return Ok(bytes.take(count as usize).collect());
    }
    let made: Option<Vec<_>> = (0..count).map(|n| seeded(kind, seed, n)).collect();
    made.ok_or_else(usage)
}

fn write(kind: &str, seed: &str, images: &[Vec<u8>], folder: &str) -> Result<(), String> {
    std::fs::create_dir_all(folder).map_err(|e| e.to_string())?;
    for (number, image) in images.iter().enumerate() {
        let name = format!("{kind}-{seed}-{number:06}.img");
        let path = Path::new(folder).join(name);
        std::fs::write(path, image).map_err(|e| e.to_string())?;
    }
    Ok(())
}
