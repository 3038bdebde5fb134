use crate::{Answer, Call};
use std::fmt;

/// One thing that happens. A history is a row of these, the earliest first.
#[derive(Clone, Copy, Debug, PartialEq, Eq)]
pub enum Event {
    /// A program asks the keeper.
    Asked { who: u32, call: Call },
    /// It is told the answer.
    Told { who: u32, call: Call, answer: Answer },
    /// A program reads a word of what its place v shows.
    Loaded { who: u32, v: u32, word: u32, x: u64 },
    /// It writes one.
    Stored { who: u32, v: u32, word: u32, x: u64 },
    /// Nothing is shown there.
    Faulted { who: u32, v: u32 },
    /// The registers of device d are shown there.
    Poked { who: u32, v: u32, d: u32 },
    /// Under the number of device d, at its page p, a word of a frame is read.
    Took { d: u32, p: u32, frame: u32, word: u32, x: u64 },
    /// One is written.
    Put { d: u32, p: u32, frame: u32, word: u32, x: u64 },
    /// A device finds nothing at a page, or nothing that it may write.
    Missed { d: u32, p: u32, writes: bool },
    /// The IOMMU was asked to forget a device, and said that it has, or that it has not.
    Drained { d: u32, said: bool },
}

impl fmt::Display for Event {
    fn fmt(&self, f: &mut fmt::Formatter<'_>) -> fmt::Result {
        match *self {
            Event::Asked { who, call } => write!(f, "{who} asks: {call}"),
            Event::Told { who, call, answer } => write!(f, "{who} is told {answer}: {call}"),
            Event::Loaded { who, v, word, x } => write!(f, "{who} loads {x} from word {word} at {v}"),
            Event::Stored { who, v, word, x } => write!(f, "{who} stores {x} in word {word} at {v}"),
            Event::Faulted { who, v } => write!(f, "{who} faults at {v}"),
            Event::Poked { who, v, d } => write!(f, "{who} reaches the registers of {d} at {v}"),
            Event::Took { d, p, frame, word, x } => {
                write!(f, "device {d} reads {x} from word {word} at page {p}, in frame {frame}")
            }
            Event::Put { d, p, frame, word, x } => {
                write!(f, "device {d} writes {x} to word {word} at page {p}, in frame {frame}")
            }
            Event::Missed { d, p, writes } => {
                write!(f, "device {d} misses page {p} for a {}", if writes { "write" } else { "read" })
            }
            Event::Drained { d, said } => {
                write!(f, "a drain of {d} says {}", if said { "yes" } else { "no" })
            }
        }
    }
}
