//! Lines about devices and the IOMMU: accesses by the tables, keeping a page, writing by what was kept.

use crate::refused::{NoRoom, Refused, below};
use crate::walks::Way;
use crate::{Board, Machine};
use protocol::{Outcome, PAGES, WORDS};

impl Board {
    fn has_page(&self, d: u32, p: u32) -> Result<(), Refused> {
        below(d, self.devices())?;
        below(p, PAGES)
    }

    /// The way of an access by the tables as they stand now, and none where it misses. Nothing is kept.
    fn reach(&mut self, d: u32, p: u32, word: u32, writes: bool) -> Result<Option<Way>, Refused> {
        self.has_page(d, p)?;
        below(word, WORDS)?;
        if self.miss_at(d, p, writes)? {
            return Ok(None);
        }
        self.way(d, p).map(Some).ok_or(Refused::NoFrame)
    }

    pub(crate) fn read(&mut self, d: u32, p: u32, word: u32) -> Result<Outcome, Refused> {
        match self.reach(d, p, word, false)? {
            Some(way) => Ok(Outcome::Took(self.take_at(way.page, word)?)),
            None => Ok(Outcome::Miss),
        }
    }

    pub(crate) fn write(&mut self, d: u32, p: u32, word: u32, x: u64) -> Result<Outcome, Refused> {
        let Some(way) = self.reach(d, p, word, true)? else {
            return Ok(Outcome::Miss);
        };
        self.put_at(way.page, word, x)?;
        Ok(Outcome::Put)
    }

    /// The tables on the way to a page, and its entry, are kept, as far as there is room.
    fn keep_way(&mut self, way: Way) -> Result<(), NoRoom> {
        self.uppers.learn(way.upper)?;
        self.lowers.learn(way.lower)?;
        self.pages.learn(way.page)
    }

    pub(crate) fn keep(&mut self, d: u32, p: u32) -> Result<Outcome, Refused> {
        self.has_page(d, p)?;
        let kept = self.way(d, p).is_some_and(|way| self.keep_way(way).is_ok());
        Ok(if kept { Outcome::Kept } else { Outcome::Nothing })
    }

    /// A write by a page that was kept, if there is one and it may be written.
    pub(crate) fn write_kept(&mut self, d: u32, p: u32, word: u32, x: u64) -> Result<Outcome, Refused> {
        self.has_page(d, p)?;
        below(word, WORDS)?;
        let put = self.pages.find(d, p).is_some_and(|kept| self.put_at(kept, word, x).is_ok());
        Ok(if put { Outcome::Put } else { Outcome::Miss })
    }
}
