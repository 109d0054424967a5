//! The oracle: what the published machine answers for an image, in the runner's words. The model
//! decides whether a run lies in the domain; the answer itself comes from the published
//! machine, which runs in a process of its own because nothing keeps it from panicking or from
//! reading outside its vectors.
//!
//! A line of the oracle is one of
//! - `value COUNT HEX` or `stop NUMBER COUNT CHUNK OFFSET`, the runner's line, inside the domain;
//! - `outside LINE: REASON`, where LINE is the runner's line by the model (`refused` included);
//! - `differs model LINE, published LINE`, which no image should give.

mod child;
pub mod numbers;

pub use child::serve_if_child;

use image::Image;
use model::{BUDGET, Judged, ROOM, Refusal};

/// The oracle's line for one image, without its line feed.
pub fn answer(image: &[u8]) -> String {
    answers(&[image.to_vec()]).remove(0)
}

/// The oracle's lines for many images, in their order. One process answers for as many as it
/// survives. A command that calls this begins with [`serve_if_child`], so that it can be started
/// again as that process; a test needs the command `oracle` to be built.
pub fn answers(images: &[Vec<u8>]) -> Vec<String> {
    let answered = answered(images).into_iter();
    answered.map(|answered| answered.line).collect()
}

/// What the oracle says of an image.
pub struct Answered {
    /// the oracle's line
    pub line: String,
    /// what it rests on: the image as the model loads it and its judged run, or the refusal
    pub judged: Result<(Image, Judged), Refusal>,
}

/// As [`answers`], with the model's judgement beside each line.
pub fn answered(images: &[Vec<u8>]) -> Vec<Answered> {
    let judged: Vec<_> = images.iter().map(|image| judge(image)).collect();
    let asked: Vec<&[u8]> = (images.iter().zip(&judged))
        .filter(|(_, judged)| is_inside(judged))
        .map(|(image, _)| image.as_slice())
        .collect();
    let mut replies = child::ask(&asked).into_iter();
    let line = |judged: &Result<(Image, Judged), Refusal>| match judged {
        Err(refusal) => format!("outside {refusal}: it does not load"),
        Ok((_, run)) => match run.outside {
            Some(why) => format!("outside {}: {why}", run.answer),
            None => {
                let reply = replies.next().expect("a reply for each asked");
                settle(&run.answer.to_string(), &reply)
            }
        },
    };
    let lines: Vec<String> = judged.iter().map(line).collect();
    let together = lines.into_iter().zip(judged);
    together
        .map(|(line, judged)| Answered { line, judged })
        .collect()
}

fn judge(bytes: &[u8]) -> Result<(Image, Judged), Refusal> {
    let image = model::load(bytes)?;
    let judged = model::judge(&image, BUDGET, ROOM);
    Ok((image, judged))
}

fn is_inside(judged: &Result<(Image, Judged), Refusal>) -> bool {
    matches!(judged, Ok((_, run)) if run.outside.is_none())
}

/// What the published machine itself does with images that load, outside the domain too: the runner's
/// line, or `panic`, `assertion` with its message, `died`, `late`, or `no end after` the runner's
/// budget. Where an assertion fails, the machine built without them reads outside its vectors.
pub fn published_lines(images: &[Vec<u8>]) -> Vec<String> {
    let asked: Vec<&[u8]> = images.iter().map(Vec::as_slice).collect();
    child::ask(&asked)
        .into_iter()
        .map(|reply| match reply {
            child::Reply::Line(line) => line,
            child::Reply::Died => "died".to_string(),
            child::Reply::Late => "late".to_string(),
        })
        .collect()
}

/// Whether a line says that the model and the published machine differ.
pub fn is_difference(line: &str) -> bool {
    line.starts_with("differs ")
}

/// The oracle's line for a run inside the domain.
fn settle(model: &str, reply: &child::Reply) -> String {
    match reply {
        child::Reply::Line(line) if line == model => line.clone(),
        child::Reply::Line(line) => format!("differs model {model}, published {line}"),
        child::Reply::Died => format!("differs model {model}, published died"),
        child::Reply::Late => format!("outside {model}: the Rust gave no answer in time"),
    }
}

#[cfg(test)]
mod tests {
    use super::*;
    use child::Reply;

    /// No image is known for which the two differ, so what a difference looks like is shown here.
    #[test]
    fn a_difference() {
        let line = settle("value 1 00", &Reply::Line("value 2 00".to_string()));
        assert_eq!(line, "differs model value 1 00, published value 2 00");
        assert!(is_difference(&line));
        let line = settle("value 1 00", &Reply::Line("panic".to_string()));
        assert_eq!(line, "differs model value 1 00, published panic");
        assert!(is_difference(&settle("value 1 00", &Reply::Died)));
        let same = settle("value 1 00", &Reply::Line("value 1 00".to_string()));
        assert_eq!(same, "value 1 00");
        assert!(!is_difference(&settle("value 1 00", &Reply::Late)));
    }
}
