//! What programs ask and are told, what devices are, and what happens: the words that all crates here share.
//!
//! `docs/MODEL.md` of this repository says what each means.

mod event;
mod line;
mod outcome;
mod transcript;

pub use event::Event;
pub use line::{LONGEST, Line};
pub use outcome::Outcome;
pub use transcript::Transcript;

use std::fmt;

/// How many words a frame has.
pub const WORDS: u32 = 512;
/// How many programs there are.
pub const PROGRAMS: u32 = 32;
/// How many places an address space has.
pub const PLACES: u32 = 1024;
/// How many pages a device sees.
pub const PAGES: u32 = 262_144;
/// The most devices that a machine has.
pub const MOST_DEVICES: u32 = 32;
/// The fewest frames that a machine has.
pub const FEWEST_FRAMES: u32 = 64;
/// The most frames that a machine has.
pub const MOST_FRAMES: u32 = 65_536;

/// A device: its group, and the program that may open it.
#[repr(C)]
#[derive(Clone, Copy, Debug, PartialEq, Eq)]
pub struct Device {
    pub group: u32,
    pub driver: u32,
}

/// What a program asks of the keeper.
#[derive(Clone, Copy, Debug, PartialEq, Eq)]
pub enum Call {
    Get { v: u32 },
    Free { v: u32 },
    Give { v: u32, to: u32, at: u32 },
    Open { d: u32 },
    Close { d: u32 },
    Regs { d: u32, v: u32 },
    Lend { v: u32, d: u32, p: u32, writes: bool },
    Recall { v: u32 },
    End { who: u32 },
}

/// A call as a script writes it, behind the program's number.
impl fmt::Display for Call {
    fn fmt(&self, f: &mut fmt::Formatter<'_>) -> fmt::Result {
        match *self {
            Call::Get { v } => write!(f, "get {v}"),
            Call::Free { v } => write!(f, "free {v}"),
            Call::Give { v, to, at } => write!(f, "give {v} {to} {at}"),
            Call::Open { d } => write!(f, "open {d}"),
            Call::Close { d } => write!(f, "close {d}"),
            Call::Regs { d, v } => write!(f, "regs {d} {v}"),
            Call::Lend { v, d, p, writes } => {
                write!(f, "lend {v} {d} {p} {}", if writes { 'w' } else { 'r' })
            }
            Call::Recall { v } => write!(f, "recall {v}"),
            Call::End { who } => write!(f, "end {who}"),
        }
    }
}

/// What a program is told.
#[derive(Clone, Copy, Debug, PartialEq, Eq)]
pub enum Answer {
    Done,
    Later,
    /// Refused, by the number of the reason.
    No(u32),
}

/// An answer as `dome` prints it.
impl fmt::Display for Answer {
    fn fmt(&self, f: &mut fmt::Formatter<'_>) -> fmt::Result {
        match self {
            Answer::Done => f.write_str("done"),
            Answer::Later => f.write_str("later"),
            Answer::No(n) => write!(f, "no {n}"),
        }
    }
}
