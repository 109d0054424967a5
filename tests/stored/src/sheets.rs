//! The example sheets: their images and what they give.

use std::path::PathBuf;

/// The folder of the sheets, from the folder that cargo gives.
pub fn folder() -> PathBuf {
    PathBuf::from(env!("CARGO_MANIFEST_DIR")).join("../../sheets")
}

/// The sheets by name, in order.
pub fn names() -> Result<Vec<String>, String> {
    let folder = std::fs::read_dir(folder()).map_err(|error| format!("sheets: {error}"))?;
    let mut names = Vec::new();
    for entry in folder {
        let path = entry.map_err(|error| error.to_string())?.path();
        if path.extension().is_some_and(|end| end == "asm")
            && let Some(name) = path.file_stem().and_then(|name| name.to_str())
        {
            names.push(name.to_string());
        }
    }
    names.sort();
    Ok(names)
}

/// The image lines of a sheet, from its assembly text. A sheet passes the stack check.
pub fn image(name: &str) -> Result<String, String> {
    let path = folder().join(format!("{name}.asm"));
    let text = std::fs::read_to_string(path).map_err(|error| format!("{name}: {error}"))?;
    let image = asm::assemble(&text).map_err(|error| format!("{name}.asm: {error}"))?;
    match model::stack_check(&image) {
        model::Checked::Pass => Ok(image.lines()),
        fault => Err(format!(
            "{name}.asm does not pass the stack check: {fault:?}"
        )),
    }
}
