//! What programs do with their address spaces while nobody is served.

use crate::refused::{Refused, below};
use crate::{Board, View};
use protocol::{Event, Outcome, PLACES, PROGRAMS, WORDS};

impl Board {
    /// The frame that a place shows, or what is said where it shows none.
    fn frame_shown(&mut self, who: u32, v: u32, word: u32) -> Result<Result<u32, Outcome>, Refused> {
        below(who, PROGRAMS)?;
        below(v, PLACES)?;
        below(word, WORDS)?;
        match self.spaces.view(who, v) {
            View::Page(frame) => Ok(Ok(frame)),
            View::Hidden => {
                self.note_aside(Event::Faulted { who, v })?;
                Ok(Err(Outcome::Fault))
            }
            View::Regs(d) => {
                self.note_aside(Event::Poked { who, v, d })?;
                Ok(Err(Outcome::Poked))
            }
        }
    }

    pub(crate) fn load(&mut self, who: u32, v: u32, word: u32) -> Result<Outcome, Refused> {
        let frame = match self.frame_shown(who, v, word)? {
            Ok(frame) => frame,
            Err(said) => return Ok(said),
        };
        let x = self.memory.word(u64::from(frame), word);
        self.note_aside(Event::Loaded { who, v, word, x })?;
        Ok(Outcome::Loaded(x))
    }

    pub(crate) fn store(&mut self, who: u32, v: u32, word: u32, x: u64) -> Result<Outcome, Refused> {
        let frame = match self.frame_shown(who, v, word)? {
            Ok(frame) => frame,
            Err(said) => return Ok(said),
        };
        self.note_aside(Event::Stored { who, v, word, x })?;
        self.memory.write(frame, word, x);
        Ok(Outcome::Stored)
    }
}
