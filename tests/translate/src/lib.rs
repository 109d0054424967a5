//! The way from an image to the published machine and back, as far as it needs none of that
//! machine's types: code bytes one way, error messages the other. Both builds of the machine use it.

pub mod code;
mod layout;
pub mod messages;

/// How a run of the published machine ended, in document 01's numbers.
#[derive(Debug, Clone, PartialEq, Eq)]
pub enum Ending {
    /// the coded result
    Value(Vec<u8>),
    /// the coded result is longer than the room for it
    TooLong,
    Stop {
        number: u8,
        chunk: u16,
        offset: u16,
    },
    /// an error whose message document 01 gives no number
    Unmapped(String),
    /// one of the machine's own assertions failed, with this message: without assertions it goes on
    /// and reads outside its vectors
    Asserted(&'static str),
    /// more instructions than the runner's budget: given up
    Endless,
}
