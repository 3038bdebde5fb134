//! Calls, as the machine notes them; and what becomes of every other line.

use crate::dice::Dice;
use crate::refused::Refused;
use crate::{ASKINGS, Board};
use protocol::{Answer, Call, Event, Line, Outcome};

/// So many events a call can bring about: its asking, its answer, and one for each operation.
const CALL: usize = ASKINGS as usize + 2;

impl Board {
    #[inline]
    pub(crate) fn has_room_for_call(&self) -> bool {
        self.room() >= CALL
    }

    /// A program asks the keeper, which may ask for 2,048 operations then.
    #[inline]
    pub(crate) fn ask(&mut self, who: u32, call: Call) {
        self.note(Event::Asked { who, call });
        self.refill();
    }

    /// The 2,048 operations of a call may be asked for.
    #[inline]
    pub(crate) fn refill(&mut self) {
        self.asked += u64::from(ASKINGS - self.left);
        self.left = ASKINGS;
    }

    /// It is told the answer.
    #[inline]
    pub(crate) fn tell(&mut self, who: u32, call: Call, answer: Answer) {
        self.note(Event::Told { who, call, answer });
    }

    fn set(&mut self, line: Line) {
        match line {
            Line::Refuse { n } => self.refusals = n,
            Line::Seed { s } => self.dice = Some(Dice::from_seed(s)),
            _ => {}
        }
    }

    fn reply(&mut self, line: Line) -> Result<Outcome, Refused> {
        match line {
            Line::Store { who, v, word, x } => self.store(who, v, word, x),
            Line::Load { who, v, word } => self.load(who, v, word),
            Line::Read { d, p, word } => self.read(d, p, word),
            Line::Write { d, p, word, x } => self.write(d, p, word, x),
            Line::Keep { d, p } => self.keep(d, p),
            Line::Kept { d, p, word, x } => self.write_kept(d, p, word, x),
            // A call is the keeper's, and the others print nothing.
            Line::Call { .. } | Line::Refuse { .. } | Line::Seed { .. } | Line::New => Err(Refused::OutOfRange),
        }
    }

    /// What becomes of a line that is no call, if anything is said of it.
    pub(crate) fn play_line(&mut self, line: Line) -> Option<Outcome> {
        if !line.prints() {
            self.set(line);
            return None;
        }
        Some(self.reply(line).unwrap_or_else(Outcome::from))
    }
}
