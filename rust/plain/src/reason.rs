//! Why a call is refused.

use protocol::Answer;

/// The reasons, by their numbers.
#[derive(Clone, Copy, Debug, PartialEq, Eq)]
#[repr(u32)]
pub(crate) enum Reason {
    OutOfRange = 1,
    NoPage = 2,
    Occupied = 3,
    WrongLoan = 4,
    NotYours = 5,
    Held = 6,
    NoFrame = 7,
    NotPermitted = 8,
}

impl Reason {
    /// Refused for this reason, unless it `holds`.
    #[inline(always)]
    pub(crate) fn unless(self, holds: bool) -> Result<(), Reason> {
        if holds { Ok(()) } else { Err(self) }
    }
}

impl From<Reason> for Answer {
    fn from(e: Reason) -> Answer {
        Answer::No(e as u32)
    }
}
