//! What comes of a line of a script.

use crate::Answer;
use std::fmt;

/// What is said of a line that prints.
#[derive(Clone, Copy, Debug, PartialEq, Eq)]
pub enum Outcome {
    /// A call is done, or is to be asked again later.
    Done,
    Later,
    /// A call, or a line with a number out of range, is refused by the number of the reason.
    No(u32),
    /// A program loaded a word, stored one, found nothing shown, or a device's registers.
    Loaded(u64),
    Stored,
    Fault,
    Poked,
    /// A device read a word, wrote one, or missed.
    Took(u64),
    Put,
    Miss,
    /// The IOMMU kept a mapping, or found none.
    Kept,
    Nothing,
    /// The machine is at its end.
    Over,
    /// The line of this number is none.
    BadLine(u64),
}

impl From<Answer> for Outcome {
    fn from(answer: Answer) -> Outcome {
        match answer {
            Answer::Done => Outcome::Done,
            Answer::Later => Outcome::Later,
            Answer::No(n) => Outcome::No(n),
        }
    }
}

/// As `dome` prints it.
impl fmt::Display for Outcome {
    fn fmt(&self, f: &mut fmt::Formatter<'_>) -> fmt::Result {
        match *self {
            Outcome::Done => f.write_str("done"),
            Outcome::Later => f.write_str("later"),
            Outcome::No(n) => write!(f, "no {n}"),
            Outcome::Loaded(x) => write!(f, "load {x}"),
            Outcome::Stored => f.write_str("stored"),
            Outcome::Fault => f.write_str("fault"),
            Outcome::Poked => f.write_str("poked"),
            Outcome::Took(x) => write!(f, "took {x}"),
            Outcome::Put => f.write_str("put"),
            Outcome::Miss => f.write_str("miss"),
            Outcome::Kept => f.write_str("kept"),
            Outcome::Nothing => f.write_str("nothing"),
            Outcome::Over => f.write_str("over"),
            Outcome::BadLine(k) => write!(f, "line {k}?"),
        }
    }
}
