//! Writes the published machine's answers for numbers, and the model's where a request of document 02 departs from that machine, to
//! standard output: the stored file `crates/number_vectors/stdin`, which the program of that name replays. `oracle::numbers` says
//! what a line holds.

use std::io::{self, Write};

fn main() -> io::Result<()> {
    io::stdout()
        .lock()
        .write_all(oracle::numbers::text().as_bytes())
}
