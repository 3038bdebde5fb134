//! What the IOMMU keeps of one kind, or has under way.

use crate::dice::Dice;
use crate::refused::NoRoom;

/// What is of a device.
pub(crate) trait OfDevice: Copy + Eq {
    fn device(&self) -> u32;
}

/// An upper table: the frame that it is in.
#[derive(Clone, Copy, Debug, PartialEq, Eq)]
pub(crate) struct UpperTable {
    pub(crate) device: u32,
    pub(crate) table: u64,
}

/// A lower table, for the pages from 512 times `slot` on.
#[derive(Clone, Copy, Debug, PartialEq, Eq)]
pub(crate) struct LowerTable {
    pub(crate) device: u32,
    pub(crate) slot: u32,
    pub(crate) table: u64,
}

/// A page's entry: 1 and twice the frame, and 1 more where it may be written.
#[derive(Clone, Copy, Debug, PartialEq, Eq)]
pub(crate) struct PageEntry {
    pub(crate) device: u32,
    pub(crate) page: u32,
    pub(crate) entry: u64,
}

impl OfDevice for UpperTable {
    fn device(&self) -> u32 {
        self.device
    }
}

impl OfDevice for LowerTable {
    fn device(&self) -> u32 {
        self.device
    }
}

impl OfDevice for PageEntry {
    fn device(&self) -> u32 {
        self.device
    }
}

/// A list with room for `most`, the oldest first; nothing stands in it twice.
pub(crate) struct Kept<T> {
    items: Vec<T>,
    most: usize,
}

impl<T: OfDevice> Kept<T> {
    pub(crate) fn new(most: usize) -> Kept<T> {
        Kept { items: Vec::with_capacity(most), most }
    }

    pub(crate) fn len(&self) -> usize {
        self.items.len()
    }

    pub(crate) fn clear(&mut self) {
        self.items.clear();
    }

    /// Keeps one more, unless it has it.
    pub(crate) fn learn(&mut self, x: T) -> Result<(), NoRoom> {
        if self.items.contains(&x) {
            return Ok(());
        }
        if self.items.len() == self.most {
            return Err(NoRoom);
        }
        self.items.push(x);
        Ok(())
    }

    /// One of them, if there is any.
    pub(crate) fn pick(&self, dice: &mut Dice) -> Option<T> {
        let n = self.items.len() as u32;
        (n > 0).then(|| self.items[dice.below(n) as usize])
    }

    /// Forgets one of them, if there is any.
    pub(crate) fn lose_one(&mut self, dice: &mut Dice) {
        let n = self.items.len() as u32;
        if n > 0 {
            self.items.remove(dice.below(n) as usize);
        }
    }

    /// Forgets all of a device.
    pub(crate) fn forget(&mut self, d: u32) {
        self.items.retain(|x| x.device() != d);
    }
}

impl Kept<PageEntry> {
    /// The newest of a device's page.
    pub(crate) fn find(&self, d: u32, p: u32) -> Option<PageEntry> {
        self.items.iter().rev().find(|e| e.device == d && e.page == p).copied()
    }
}
