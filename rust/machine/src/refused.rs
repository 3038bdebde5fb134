//! Why nothing comes of a line, or of an access.

use protocol::Outcome;

/// There is no room for one more.
#[derive(Clone, Copy, Debug, PartialEq, Eq)]
pub(crate) struct NoRoom;

#[derive(Clone, Copy, Debug, PartialEq, Eq)]
pub(crate) enum Refused {
    /// A number is out of range.
    OutOfRange,
    /// The log has no room for the event.
    NoRoom,
    /// The frame is not in memory.
    NoFrame,
    /// The entry lets nothing be written.
    ReadOnly,
}

impl From<NoRoom> for Refused {
    fn from(_: NoRoom) -> Refused {
        Refused::NoRoom
    }
}

impl From<Refused> for Outcome {
    fn from(e: Refused) -> Outcome {
        match e {
            Refused::OutOfRange => Outcome::No(1),
            Refused::NoRoom | Refused::NoFrame | Refused::ReadOnly => Outcome::Over,
        }
    }
}

/// `n` is one of the numbers below `end`.
pub(crate) fn below(n: u32, end: u32) -> Result<(), Refused> {
    if n < end { Ok(()) } else { Err(Refused::OutOfRange) }
}
