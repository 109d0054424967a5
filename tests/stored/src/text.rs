//! The lists as text: the image as it is, then its answer after `= `. Where an image does not end
//! with a line feed, the answer stands after `~ ` and the line feed before it is not the image's.

/// One image with its answer.
#[derive(Debug, Clone, PartialEq, Eq)]
pub struct Entry {
    pub image: Vec<u8>,
    pub answer: String,
}

/// Whether an image can be stored: readable characters and line feeds only, and no line that could
/// be taken for an answer.
pub fn storable(image: &[u8]) -> bool {
    let readable = image.iter().all(|b| matches!(b, b'\n' | 0x20..=0x7E));
    let mut lines = image.split(|&b| b == b'\n');
    readable && lines.all(|line| !line.starts_with(b"=") && !line.starts_with(b"~"))
}

/// The text of a list.
pub fn written(entries: &[Entry]) -> String {
    let mut text = String::new();
    for entry in entries {
        text.push_str(&String::from_utf8_lossy(&entry.image));
        let mark = match entry.image.last() {
            None | Some(b'\n') => "=",
            Some(_) => "\n~",
        };
        text.push_str(&format!("{mark} {}\n", entry.answer));
    }
    text
}

/// The entries of a list's text.
pub fn entries(text: &str) -> Vec<Entry> {
    let mut entries = Vec::new();
    let mut image = Vec::new();
    for line in text.lines() {
        let (answer, cut) = match (line.strip_prefix("= "), line.strip_prefix("~ ")) {
            (Some(answer), _) => (answer, false),
            (_, Some(answer)) => (answer, true),
            _ => {
                image.extend_from_slice(line.as_bytes());
                image.push(b'\n');
                continue;
            }
        };
        if cut {
            image.pop();
        }
        entries.push(Entry {
            image: std::mem::take(&mut image),
            answer: answer.to_string(),
        });
    }
    entries
}
