use std::fmt;

/// Why an event is not explained: the promise that it breaks.
#[derive(Clone, Copy, Debug, PartialEq, Eq, Hash)]
pub enum Reason {
    /// A call is asked while another is not told.
    AskedInCall,
    /// An answer is told, and there is no call.
    ToldUnasked,
    /// An answer is told to another call than the one that was asked.
    ToldAnother,
    /// A program does something at a place while a call is not told.
    ProgramInCall,

    /// An event names a program, place, word, device, page of a device or frame that there is not.
    NoSuchProgram,
    NoSuchPlace,
    NoSuchWord,
    NoSuchDevice,
    NoSuchPage,
    NoSuchFrame,

    /// A program loads or stores at a place that shows nothing.
    NoPageThere,
    /// A program loads or stores at a place that shows registers.
    RegistersThere,
    /// A word is found that nobody put into this page since it was got.
    NotNoughts {
        found: u64,
    },
    /// A word is found that is not what was last put there.
    WrongWord {
        found: u64,
        last: u64,
    },
    /// A program faults at its own page.
    FaultedAtPage,
    /// A program faults at registers that are shown.
    FaultedAtRegisters,
    /// A program reaches registers at its own page.
    PokedAtPage,
    /// A program reaches the registers of another device than the place shows.
    PokedAnother {
        shown: u32,
    },
    /// A program reaches the registers of a device that it has open, but at a place that does not show them.
    PokedNotShown,
    /// A program reaches the registers of a device that it has not open.
    PokedNotOpen,

    /// A device reads where no page is lent to it or leaving.
    ReadNotLent,
    /// A device writes where no page is lent to it or leaving.
    WroteNotLent,
    /// A device writes where a page was lent only to be read.
    WroteReadOnly,
    /// A device misses a page that is lent to it, for what it was lent for.
    MissedLent,
    /// A device reaches frame 0.
    ReachedKeepers,
    /// The page that is lent there is another frame.
    AnotherFrame {
        first: u32,
    },
    /// This frame was another page, at some time since the page that is lent there was got.
    FrameOfTwo,

    /// The unit was asked to forget a device, and there is no call.
    DrainedBetweenCalls,
    /// The unit was asked to forget a device that the call does not wait for.
    DrainedInVain,
    /// The unit was asked twice in one call to forget a device.
    DrainedTwice,

    /// Done, and the unit was not asked during this call to forget this device.
    DoneUnasked {
        d: u32,
    },
    /// Done, and the unit said during this call that it has not forgotten this device.
    DoneAfterNo {
        d: u32,
    },
    /// Later, and the unit was not asked during this call to forget this device.
    LaterUnasked {
        d: u32,
    },
    /// Later, and every device was forgotten that the call waits for.
    LaterAfterYes,
    /// Later, and the call waits for no device.
    LaterInVain,
    /// Refused, and no reason applies.
    RefusedInVain {
        told: u32,
    },
    /// Refused, but not with the first reason that applies.
    WrongNumber {
        told: u32,
        right: u32,
    },
    /// Done, and it was to be refused.
    DoneNotRefused {
        right: u32,
    },
    /// Later, and it was to be refused.
    LaterNotRefused {
        right: u32,
    },
}

impl fmt::Display for Reason {
    fn fmt(&self, f: &mut fmt::Formatter<'_>) -> fmt::Result {
        let text = match *self {
            Reason::AskedInCall => "a call is asked while another is not told",
            Reason::ToldUnasked => "an answer is told, and there is no call",
            Reason::ToldAnother => "an answer is told to another call than was asked",
            Reason::ProgramInCall => "a program runs while a call is not told",
            Reason::NoSuchProgram => "there is no such program",
            Reason::NoSuchPlace => "there is no such place",
            Reason::NoSuchWord => "there is no such word",
            Reason::NoSuchDevice => "there is no such device",
            Reason::NoSuchPage => "a device has no such page",
            Reason::NoSuchFrame => "there is no such frame",
            Reason::NoPageThere => "the place shows nothing",
            Reason::RegistersThere => "the place shows registers",
            Reason::NotNoughts { found } => {
                return write!(f, "nobody put {found} there since the page was got: it is to be 0");
            }
            Reason::WrongWord { found, last } => return write!(f, "{last} was put there last, not {found}"),
            Reason::FaultedAtPage => "the place shows a page",
            Reason::FaultedAtRegisters => "the place shows registers, and no fault comes of them",
            Reason::PokedAtPage => "the place shows a page, no registers",
            Reason::PokedAnother { shown } => return write!(f, "the place shows the registers of {shown}"),
            Reason::PokedNotShown => "the place shows nothing, though the device is open",
            Reason::PokedNotOpen => "the program does not have that device open",
            Reason::ReadNotLent => "no page is lent there or leaving: nothing is to be read",
            Reason::WroteNotLent => "no page is lent there or leaving: nothing is to be written",
            Reason::WroteReadOnly => "the page there was lent only to be read",
            Reason::MissedLent => "a page is lent there: it is not to be missed",
            Reason::ReachedKeepers => "frame 0 is the keeper's",
            Reason::AnotherFrame { first } => return write!(f, "the page there is frame {first}"),
            Reason::FrameOfTwo => "this frame was another page while the page there was somebody's",
            Reason::DrainedBetweenCalls => "a drain is asked, and there is no call",
            Reason::DrainedInVain => "a drain is asked of a device that the call does not wait for",
            Reason::DrainedTwice => "a second drain of a device is asked in one call",
            Reason::DoneUnasked { d } => return write!(f, "done, without a drain of {d} in this call"),
            Reason::DoneAfterNo { d } => return write!(f, "done, after a drain of {d} said no"),
            Reason::LaterUnasked { d } => return write!(f, "later, without a drain of {d} in this call"),
            Reason::LaterAfterYes => "later, though every drain said yes",
            Reason::LaterInVain => "later, and the call waits for no device",
            Reason::RefusedInVain { told } => return write!(f, "refused with {told}, and no reason applies"),
            Reason::WrongNumber { told, right } => return write!(f, "refused with {told}, and {right} is right"),
            Reason::DoneNotRefused { right } => return write!(f, "done, and it was to be refused with {right}"),
            Reason::LaterNotRefused { right } => return write!(f, "later, and it was to be refused with {right}"),
        };
        f.write_str(text)
    }
}

impl std::error::Error for Reason {}
