//! What programs find at their places, between calls.

use crate::Reason;
use crate::devices::Hold;
use crate::pages::PageId;
use crate::places::Shown;
use crate::state::State;
use protocol::{PLACES, PROGRAMS, WORDS};

impl State {
    pub fn loaded(&self, who: u32, v: u32, word: u32, x: u64) -> Result<(), Reason> {
        let page = self.own_word(who, v, word)?;
        self.pages[page].words.check(word, x)
    }

    pub fn stored(&mut self, who: u32, v: u32, word: u32, x: u64) -> Result<(), Reason> {
        let page = self.own_word(who, v, word)?;
        self.pages[page].words.set(word, x);
        Ok(())
    }

    /// A program faults only where nothing is shown.
    pub fn faulted(&self, who: u32, v: u32) -> Result<(), Reason> {
        match self.shown(who, v)? {
            Shown::Nothing => Ok(()),
            Shown::Page(_) => Err(Reason::FaultedAtPage),
            Shown::Registers(_) => Err(Reason::FaultedAtRegisters),
        }
    }

    /// A program reaches registers only where they are shown.
    pub fn poked(&self, who: u32, v: u32, d: u32) -> Result<(), Reason> {
        let device = self.device(d).ok_or(Reason::NoSuchDevice)?;
        match self.shown(who, v)? {
            Shown::Registers(shown) if shown == d => Ok(()),
            Shown::Registers(shown) => Err(Reason::PokedAnother { shown }),
            Shown::Page(_) => Err(Reason::PokedAtPage),
            Shown::Nothing if device.hold == Hold::Open(who) => Err(Reason::PokedNotShown),
            Shown::Nothing => Err(Reason::PokedNotOpen),
        }
    }

    fn own_word(&self, who: u32, v: u32, word: u32) -> Result<PageId, Reason> {
        let shown = self.shown(who, v)?;
        if word >= WORDS {
            return Err(Reason::NoSuchWord);
        }
        match shown {
            Shown::Page(page) => Ok(page),
            Shown::Nothing => Err(Reason::NoPageThere),
            Shown::Registers(_) => Err(Reason::RegistersThere),
        }
    }

    fn shown(&self, who: u32, v: u32) -> Result<Shown, Reason> {
        if who >= PROGRAMS {
            return Err(Reason::NoSuchProgram);
        }
        if v >= PLACES {
            return Err(Reason::NoSuchPlace);
        }
        Ok(self.places.at(who, v))
    }
}
