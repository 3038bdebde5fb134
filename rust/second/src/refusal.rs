//! Why a call is refused.

use protocol::Outcome;

/// The reasons, with their numbers.
#[derive(Clone, Copy, Debug, PartialEq, Eq)]
pub enum Refusal {
    /// A place, device, page or program that there is not.
    NoSuch = 1,
    /// No page of one's own at the place.
    NoPage = 2,
    /// Something is there.
    Taken = 3,
    /// The page is not home; or, for a recall, it is.
    Home = 4,
    /// The device is not one's own.
    NotOwn = 5,
    /// The device is not shut, or another program has one of its group.
    Busy = 6,
    /// No frame is idle.
    Full = 7,
    /// An end by a program other than 0.
    NotZero = 8,
}

impl From<Refusal> for Outcome {
    fn from(refusal: Refusal) -> Outcome {
        Outcome::No(refusal as u32)
    }
}

/// Refused unless it holds.
pub fn must(holds: bool, or: Refusal) -> Result<(), Refusal> {
    if holds { Ok(()) } else { Err(or) }
}
