//! Asynchronous Backtracking on a dock rail, by the rules of docs/RULES.md: plain Rust, in
//! place, std only.
//!
//! The field's terms stand for the dock's words: agent (scanner), value (slot), domain (slot
//! count), network (rail), channel (line), Info (news), Back (refusal), AddLink (link request),
//! nogood (stored reason), lhs (left side), rejection (the numbers 1 to 13, of which 9
//! is given to nothing).

mod agent;
mod assignment;
mod channel;
mod image;
mod network;
mod problem;
pub mod random;
mod rule;
mod shape;
pub mod sheet;

pub use agent::{Agent, Counts};
pub use assignment::{AgentSet, Assignment, MAX_AGENTS, MAX_DOMAIN};
pub use channel::{Message, CAPACITY};
pub use image::MAX_IMAGE;
pub use network::{Network, Run, Word};
pub use problem::{Problem, HEADER, MAX_RECORDS, MAX_SHEET, RECORD};
pub use rule::Rule;

/// Rounds that the program allows.
pub const PROGRAM_ROUNDS: u64 = 100_000;

/// Why a call comes back.
#[derive(Clone, Copy, PartialEq, Eq, Debug)]
#[repr(u8)]
pub enum Rejection {
    /// Length under 24, or not 24 + 8m.
    Length = 1,
    /// A header byte outside its range, or first index above m.
    Header = 2,
    /// A bad record on the chain.
    Record = 3,
    /// The chain comes back to a record.
    Chain = 4,
    /// The shape is broken.
    Shape = 5,
    /// Agent numbers not 1 to n, or equal.
    Numbers = 6,
    /// A verdict already stands.
    Verdict = 7,
    /// That channel is empty.
    Empty = 8,
    /// No room.
    Room = 10,
    /// A rule other than 1 or 2.
    Rule = 11,
    /// The buffer is shorter than the image.
    Buffer = 12,
    /// Not the image of a network in shape, or bytes follow it.
    Image = 13,
}

impl Rejection {
    pub fn number(self) -> u8 {
        self as u8
    }
}
