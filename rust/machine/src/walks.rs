//! The way through the tables in memory.

use crate::Board;
use crate::kept::{LowerTable, PageEntry, UpperTable};
use protocol::WORDS;

/// A page's entry, and the tables on the way to it.
#[derive(Clone, Copy)]
pub(crate) struct Way {
    pub(crate) upper: UpperTable,
    pub(crate) lower: LowerTable,
    pub(crate) page: PageEntry,
}

impl Board {
    /// The way to a page's entry, if it has one. Its frame need not be in memory.
    fn path(&self, d: u32, p: u32) -> Option<Way> {
        if !self.live {
            return None;
        }
        let slot = p / WORDS;
        let upper = UpperTable { device: d, table: self.memory.word(0, d).checked_sub(1)? };
        let lower = LowerTable { device: d, slot, table: self.memory.word(upper.table, slot).checked_sub(1)? };
        let entry = self.memory.word(lower.table, p % WORDS);
        (entry != 0).then_some(Way { upper, lower, page: PageEntry { device: d, page: p, entry } })
    }

    /// What the tables in memory say of a page, 0 if nothing.
    pub(crate) fn walk(&self, d: u32, p: u32) -> u64 {
        self.path(d, p).map_or(0, |way| way.page.entry)
    }

    /// The way to a page, if its frame is in memory.
    pub(crate) fn way(&self, d: u32, p: u32) -> Option<Way> {
        let most = 2 * u64::from(self.memory.frames());
        self.path(d, p).filter(|way| way.page.entry <= most)
    }
}
