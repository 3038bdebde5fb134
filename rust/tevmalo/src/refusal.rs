//! Why nothing is played.

use std::error::Error;
use std::fmt;

/// What is out of range, by the number that the library gives.
#[derive(Clone, Copy, Debug, PartialEq, Eq)]
pub enum Refusal {
    /// Not 64 to 65,536 frames of 512 words.
    Frames,
    /// More than 32 devices.
    Devices,
    /// A group or a driver that is not below 32.
    Numbers,
    /// Less room in the log than for the events of one call: 2,050.
    Log,
    /// Less than 65,536 words, and two for each frame, for the keeper.
    Room,
    /// Fewer rows for what is said than the script may have lines.
    Said,
    /// A number that the library does not give.
    Other(u32),
}

impl From<u32> for Refusal {
    fn from(number: u32) -> Refusal {
        match number {
            1 => Refusal::Frames,
            2 => Refusal::Devices,
            3 => Refusal::Numbers,
            4 => Refusal::Log,
            5 => Refusal::Room,
            6 => Refusal::Said,
            other => Refusal::Other(other),
        }
    }
}

impl fmt::Display for Refusal {
    fn fmt(&self, f: &mut fmt::Formatter<'_>) -> fmt::Result {
        match self {
            Refusal::Frames => f.write_str("a machine has 64 to 65,536 frames"),
            Refusal::Devices => f.write_str("a machine has at most 32 devices"),
            Refusal::Numbers => f.write_str("a group and a driver are below 32"),
            Refusal::Log => f.write_str("the log has room for 2,050 events or more"),
            Refusal::Room => f.write_str("the keeper wants 65,536 words, and two for each frame"),
            Refusal::Said => f.write_str("there are fewer rows for what is said than lines"),
            Refusal::Other(number) => write!(f, "refused by {number}"),
        }
    }
}

impl Error for Refusal {}
