//! Accesses by devices, and misses: each is noted, and happens only where there is room to note it.

use crate::Board;
use crate::kept::PageEntry;
use crate::refused::{NoRoom, Refused};
use protocol::Event;

fn may_write(entry: u64) -> bool {
    entry.saturating_sub(1) % 2 == 1
}

impl Board {
    /// The frame that an entry names, if it is in memory.
    fn frame_of(&self, entry: u64) -> Result<u32, Refused> {
        let frame = entry.saturating_sub(1) / 2;
        if frame < u64::from(self.memory.frames()) { Ok(frame as u32) } else { Err(Refused::NoFrame) }
    }

    /// A word is read by a page's entry.
    pub(crate) fn take_at(&mut self, by: PageEntry, word: u32) -> Result<u64, Refused> {
        let frame = self.frame_of(by.entry)?;
        let x = self.memory.word(u64::from(frame), word);
        self.note_aside(Event::Took { d: by.device, p: by.page, frame, word, x })?;
        Ok(x)
    }

    /// A word is written by one, if it lets it.
    pub(crate) fn put_at(&mut self, by: PageEntry, word: u32, x: u64) -> Result<(), Refused> {
        if !may_write(by.entry) {
            return Err(Refused::ReadOnly);
        }
        let frame = self.frame_of(by.entry)?;
        self.note_aside(Event::Put { d: by.device, p: by.page, frame, word, x })?;
        self.memory.write(frame, word, x);
        Ok(())
    }

    /// A device misses a page, if the tables say so now; whether it does.
    pub(crate) fn miss_at(&mut self, d: u32, p: u32, writes: bool) -> Result<bool, NoRoom> {
        let entry = self.walk(d, p);
        if entry != 0 && (!writes || may_write(entry)) {
            return Ok(false);
        }
        self.note_aside(Event::Missed { d, p, writes })?;
        Ok(true)
    }
}
