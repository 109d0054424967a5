//! Who tries what: each worker has a copy of the repository, and stays with a crate as long as that has checks that nobody has taken.

use crate::Wanted;
use crate::batch::Batch;
use crate::copy::Copy;
use crate::trials::Trials;
use std::path::{Path, PathBuf};
use std::sync::atomic::{AtomicUsize, Ordering};
use std::sync::{Condvar, Mutex};

pub struct Work {
    top: PathBuf,
    /// The temporary folder of all copies.
    room: PathBuf,
    crates: Vec<Trials>,
    queue: Mutex<Vec<Queue>>,
    more: Condvar,
    refused: AtomicUsize,
    failed: AtomicUsize,
}

/// The checks of a crate.
struct Queue {
    /// that nobody has taken
    left: Vec<Batch>,
    /// that are at work
    running: usize,
    is_told: bool,
}

impl Work {
    pub fn new(top: &Path, room: &Path, wanted: &[Wanted]) -> Work {
        let (mut crates, mut queue) = (Vec::new(), Vec::new());
        for Wanted { name, only } in wanted {
            let (trials, mut left) = Trials::of_crate(top, name, only, &room.join("kept"));
            left.reverse();
            crates.push(trials);
            let (running, is_told) = (0, false);
            queue.push(Queue {
                left,
                running,
                is_told,
            });
        }
        Work {
            top: top.to_path_buf(),
            room: room.to_path_buf(),
            crates,
            queue: Mutex::new(queue),
            more: Condvar::new(),
            refused: 0.into(),
            failed: 0.into(),
        }
    }

    /// Tries what is left, until nothing is.
    pub fn go_on(&self, number: usize) {
        let copy = Copy::new(&self.top, self.room.join(number.to_string()));
        let mut at = None;
        while let Some((of, batch)) = self.next(at) {
            let again = self.crates[of].try_batch(&copy, batch);
            self.done(of, again);
            at = Some(of);
        }
    }

    /// A check of the crate that the worker is at, or else of the one with the most to do that has the fewest workers; none where all is done.
    fn next(&self, at: Option<usize>) -> Option<(usize, Batch)> {
        let mut queue = self.queue.lock().unwrap();
        loop {
            let with_more = (0..queue.len()).filter(|of| !queue[*of].left.is_empty());
            let fewest = |of: &usize| {
                let of = &queue[*of];
                (of.running, usize::MAX - of.left.len())
            };
            let stays = at.filter(|of| !queue[*of].left.is_empty());
            if let Some(of) = stays.or(with_more.min_by_key(fewest)) {
                queue[of].running += 1;
                let batch = queue[of].left.pop()?;
                return Some((of, batch));
            }
            if queue.iter().all(|of| of.running == 0) {
                drop(queue);
                (0..self.crates.len()).for_each(|of| self.tell(of));
                return None;
            }
            queue = self.more.wait(queue).unwrap();
        }
    }

    fn done(&self, of: usize, again: Vec<Batch>) {
        let mut queue = self.queue.lock().unwrap();
        queue[of].left.extend(again);
        queue[of].running -= 1;
        let is_done = queue[of].left.is_empty() && queue[of].running == 0;
        drop(queue);
        if is_done {
            self.tell(of);
        }
        self.more.notify_all();
    }

    /// Says what came of a crate's edits, once.
    fn tell(&self, of: usize) {
        if std::mem::replace(&mut self.queue.lock().unwrap()[of].is_told, true) {
            return;
        }
        for (edit, answer) in self.crates[of].verdicts() {
            let name = &self.crates[of].name;
            match answer {
                Ok(error) => {
                    self.refused.fetch_add(1, Ordering::Relaxed);
                    println!("wrong {name}/{edit}: refused: {}", cut(&error));
                }
                Err(why) => {
                    self.failed.fetch_add(1, Ordering::Relaxed);
                    println!("FAILED wrong {name}/{edit}: {}", cut(&why));
                }
            }
        }
    }

    /// How many edits are refused as they should be, and how many are not.
    pub fn counts(&self) -> (usize, usize) {
        let count = |of: &AtomicUsize| of.load(Ordering::Relaxed);
        (count(&self.refused), count(&self.failed))
    }
}

fn cut(text: &str) -> String {
    let words: Vec<&str> = text.split_whitespace().collect();
    words.join(" ").chars().take(240).collect()
}

#[cfg(test)]
mod tests {
    use super::*;

    #[test]
    fn a_worker_stays_with_its_crate_and_then_helps_where_most_is_left() {
        let top = std::env::temp_dir().join(format!("wrong-work-{}", std::process::id()));
        let edits = |name: &str, count: usize| {
            let folder = top.join("crates").join(name);
            std::fs::create_dir_all(folder.join("src")).unwrap();
            std::fs::create_dir_all(folder.join("wrong")).unwrap();
            std::fs::write(folder.join("src/lib.rt"), "fn f() {\n    2\n}\n").unwrap();
            for n in 0..count {
                let edit = format!("of: f\nfile: src/lib.rt\nold: 2\nnew: {}\n", n + 3);
                std::fs::write(folder.join(format!("wrong/e{n}.edit")), edit).unwrap();
            }
        };
        edits("few", 2);
        edits("most", 3);
        let wanted = crate::wanted(&["few", "most"].map(str::to_string));
        let work = Work::new(&top, &top.join("room"), &wanted);
        std::fs::remove_dir_all(top).unwrap();
        let of = |at: Option<usize>| work.next(at).map(|(of, _)| of);
        assert_eq!(of(None), Some(1));
        assert_eq!(of(None), Some(0));
        assert_eq!(of(Some(0)), Some(0));
        assert_eq!(of(Some(0)), Some(1));
        assert_eq!(of(Some(1)), Some(1));
        (0..2).for_each(|_| work.done(0, Vec::new()));
        (0..3).for_each(|_| work.done(1, Vec::new()));
        assert!(work.next(None).is_none());
    }
}
