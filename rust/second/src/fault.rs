//! What can be wrong with a keeper.

/// A fault that can be planted in the second keeper.
#[derive(Clone, Copy, Debug, PartialEq, Eq)]
pub enum Fault {
    /// There is one place too many.
    PlaceTooMany,
    /// A lend is refused for a page that is not home before it is for a page of the device that is taken.
    HomeBeforeTaken,
    /// A page of a device that somebody's page is still leaving may be lent at again.
    LeavingIsFree,
    /// A device is opened while another program has one of its group.
    GroupUnchecked,
    /// An end does not close the last of the program's devices.
    EndForgetsDevice,
    /// Places still show the registers of a device that is closed.
    CloseLeavesRegisters,
    /// A lower table becomes idle when the last page comes home from it.
    TableDropped,
    /// A page that is given stays at its old place, too.
    GiveKeepsPlace,
    /// A new page has the words of the page that became idle last.
    OldWords,
    /// A close is done though the drain said no.
    LaterIsDone,
    /// A page that is recalled is home though the drain said no.
    HomeAtNo,
    /// What is lent to be read only may be written, too.
    ReadMayWrite,
}

impl Fault {
    pub const ALL: [Fault; 12] = [
        Fault::PlaceTooMany,
        Fault::HomeBeforeTaken,
        Fault::LeavingIsFree,
        Fault::GroupUnchecked,
        Fault::EndForgetsDevice,
        Fault::CloseLeavesRegisters,
        Fault::TableDropped,
        Fault::GiveKeepsPlace,
        Fault::OldWords,
        Fault::LaterIsDone,
        Fault::HomeAtNo,
        Fault::ReadMayWrite,
    ];
}
