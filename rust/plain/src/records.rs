//! What the words say. Zero is where nothing is.

use protocol::{MOST_FRAMES, PAGES, PLACES};

/// What a place shows, in the lower 17 bits: nothing, the page in a frame, a device's registers. Above them is a tag: 0, or where the
/// page is that is shown, if a device has it.
#[derive(Clone, Copy, Debug, PartialEq, Eq)]
pub(crate) struct Place(pub(crate) u64);

const TAG: u32 = 17;
const REGISTERS: u32 = MOST_FRAMES + 1;

impl Place {
    pub(crate) const NOTHING: Place = Place(0);

    /// The bits of what is shown, one that all registers have, and those of the tag.
    pub(crate) const SHOWN: u64 = (1 << TAG) - 1;
    pub(crate) const REGISTERS: u64 = 1 << (TAG - 1);
    pub(crate) const TAGS: u64 = !Place::SHOWN;

    #[inline]
    pub(crate) fn page(frame: u32) -> Place {
        Place(u64::from(frame) + 1)
    }

    #[inline]
    pub(crate) fn registers(d: u32) -> Place {
        Place(u64::from(REGISTERS + d))
    }

    /// The page that is shown has this loan.
    #[inline]
    pub(crate) fn with(self, loan: Loan) -> Place {
        Place(u64::from(self.shown()) | u64::from(loan.tag()) << TAG)
    }

    #[inline(always)]
    fn shown(self) -> u32 {
        (self.0 & Place::SHOWN) as u32
    }

    /// The frame of the page that is shown.
    #[inline]
    pub(crate) fn frame(self) -> Option<u32> {
        self.shown().checked_sub(1).filter(|f| *f < MOST_FRAMES)
    }

    #[inline(always)]
    pub(crate) fn is_nothing(self) -> bool {
        self.shown() == 0
    }

    #[inline(always)]
    pub(crate) fn is_registers(self) -> bool {
        self.shown() >= REGISTERS
    }

    #[inline(always)]
    pub(crate) fn is_registers_of(self, d: u32) -> bool {
        self.shown() == REGISTERS + d
    }

    /// The pages that both show are with the same device at the same page, or both home.
    #[inline(always)]
    pub(crate) fn has_tag_of(self, other: Place) -> bool {
        ((self.0 ^ other.0) >> TAG) as u32 == 0
    }

    /// The page is lent to d, or leaving it.
    #[inline(always)]
    pub(crate) fn is_with(self, d: u32) -> bool {
        (self.0.wrapping_sub(1 << TAG) >> (TAG + DEVICE - PAGE)) as u32 == d
    }
}

/// What a frame is used for, and for whom, in its first word.
#[derive(Clone, Copy, Debug, PartialEq, Eq)]
pub(crate) struct Use(pub(crate) u64);

impl Use {
    pub(crate) const HOUSE: Use = Use(0);
    pub(crate) const IDLE: Use = Use(2);

    #[inline]
    pub(crate) fn table(d: u32) -> Use {
        Use(u64::from(1 + 4 * d))
    }

    #[inline]
    pub(crate) fn page(who: u32, v: u32) -> Use {
        Use(u64::from(3 + 4 * (who * PLACES + v)))
    }

    #[inline(always)]
    pub(crate) fn is_idle(self) -> bool {
        self.0 as u32 == 2
    }

    #[inline(always)]
    pub(crate) fn is_page(self) -> bool {
        self.0 % 4 == 3
    }
}

/// Where a page is, in its frame's second word: home, lent to a device at one of that one's pages, or leaving it there.
#[derive(Clone, Copy, Debug, PartialEq, Eq)]
pub(crate) struct Loan(pub(crate) u64);

/// The bits of a loan, less 1, above those that say whether the device writes and whether the page is leaving.
const LEAVING: u64 = 1 << 1;
const PAGE: u32 = 2;
const DEVICE: u32 = 20;

impl Loan {
    pub(crate) const HOME: Loan = Loan(0);

    #[inline]
    pub(crate) fn lent(d: u32, p: u32, writes: bool) -> Loan {
        Loan(u64::from(1 + u32::from(writes) + (p << PAGE) + (d << DEVICE)))
    }

    /// What is home stays so.
    #[inline]
    pub(crate) fn leaving(self) -> Loan {
        Loan((self.0.wrapping_sub(1) | LEAVING).wrapping_add(1))
    }

    /// Of a page that is not home.
    #[inline]
    pub(crate) fn is_leaving(self) -> bool {
        self.0.wrapping_sub(1) & LEAVING != 0
    }

    #[inline]
    pub(crate) fn device(self) -> u32 {
        (self.0.wrapping_sub(1) >> DEVICE) as u32 % 32
    }

    #[inline]
    pub(crate) fn page_of_device(self) -> u32 {
        (self.0.wrapping_sub(1) >> PAGE) as u32 % PAGES
    }

    /// 0 at home, and else 1 more than the page and the device.
    #[inline(always)]
    fn tag(self) -> u32 {
        self.0.div_ceil(1 << PAGE) as u32
    }
}

/// A device is shut, open by a program, or closing for it.
#[derive(Clone, Copy, Debug, PartialEq, Eq)]
pub(crate) enum State {
    Shut,
    Open(u32),
    Closing(u32),
}

impl State {
    /// The program that has it.
    #[inline]
    pub(crate) fn holder(self) -> Option<u32> {
        match self {
            State::Shut => None,
            State::Open(who) | State::Closing(who) => Some(who),
        }
    }
}

impl From<u64> for State {
    #[inline]
    fn from(word: u64) -> State {
        match (word as u32).checked_sub(1) {
            None => State::Shut,
            Some(x) if x % 2 == 0 => State::Open(x / 2),
            Some(x) => State::Closing(x / 2),
        }
    }
}

impl From<State> for u64 {
    #[inline]
    fn from(state: State) -> u64 {
        match state {
            State::Shut => 0,
            State::Open(who) => u64::from(1 + 2 * who),
            State::Closing(who) => u64::from(2 + 2 * who),
        }
    }
}
