//! Mistakes that such keepers have.

/// Lists the mistakes once: the enum, all of them, and what picks a type by a value.
macro_rules! faults {
    ($($(#[$doc:meta])* $name:ident,)*) => {
        /// A mistake that can be built into the keeper.
        #[derive(Clone, Copy, Debug, PartialEq, Eq, Hash)]
        pub enum Fault {
            $($(#[$doc])* $name,)*
        }

        impl Fault {
            /// All of them, in the order of their numbers.
            pub const ALL: &[Fault] = &[$(Fault::$name,)*];
        }

        /// Plays with the keeper that has this mistake.
        pub(crate) fn play_planted(fault: Fault, board: &mut machine::Board, lines: &[Option<protocol::Line>]) -> protocol::Transcript {
            match fault {
                $(Fault::$name => $crate::play::play_built::<$crate::Planted<{ Fault::$name as usize }>>(board, lines),)*
            }
        }
    };
}

faults! {
    /// get: the frame is not made noughts.
    NotCleared,
    /// free: the place still shows the frame.
    FreedStillShown,
    /// give: the old place still shows the frame.
    OldPlaceStillShown,
    /// open: the upper table is not made noughts.
    UpperNotCleared,
    /// lend: a new lower table is not made noughts.
    LowerNotCleared,
    /// lend: what is lent to be read can be written.
    ReadIsWrite,
    /// recall: the entry is not cleared.
    EntryStays,
    /// recall: the page is home, and the IOMMU was not asked.
    HomeUnasked,
    /// recall: the page is home, and the IOMMU has said no.
    HomeAfterNo,
    /// recall: the IOMMU is asked before the entry is cleared.
    AskedBeforeCleared,
    /// recall: the IOMMU is asked to forget another device.
    OtherDeviceAsked,
    /// close: frame 0 still has the device's upper table.
    TopStays,
    /// close and end: the registers are still shown.
    RegistersStay,
    /// close: the device is shut, and the IOMMU has said no.
    ClosedAfterNo,
    /// end: the pages are idle, and the IOMMU has said no.
    EndedAfterNo,
    /// end: devices that are closing already are forgotten by the keeper.
    EndSkipsClosing,
    /// recall: a page that is leaving is home by a yes that another call had.
    OldYesCounts,
    /// recall: it is told to ask again later, and the IOMMU was not asked.
    LaterUnasked,
    /// lend: a device's page that another page is leaving counts as free.
    LeavingTakenAgain,
    /// open: another program may have a device of the group.
    GroupNotAsked,
    /// free: the place is hidden before it is tested whether the page is home.
    RefusalChanges,
    /// lend: the entry names the frame before the page's.
    WrongFrameEntered,
    /// lend: the page need not be home.
    LentTwice,
    /// The IOMMU is started at once, and frame 0 made noughts at the first call.
    StartedTooSoon,
    /// get: a table counts as idle, and where all are pages one of them does.
    FrameTwice,
    /// give, regs and lend: two reasons are tested in the wrong order.
    WrongOrderOfReasons,
}
