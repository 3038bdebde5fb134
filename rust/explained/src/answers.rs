//! Which answer is right.

use crate::Reason;
use crate::underway::Underway;
use protocol::Answer;

impl Underway {
    /// Refused with the first reason that applied when it was asked, and otherwise done or later.
    pub fn check(&self, answer: Answer) -> Result<(), Reason> {
        match (answer, self.refusal) {
            (Answer::No(told), Some(right)) if told == right => Ok(()),
            (Answer::No(told), Some(right)) => Err(Reason::WrongNumber { told, right }),
            (Answer::No(told), None) => Err(Reason::RefusedInVain { told }),
            (Answer::Done, Some(right)) => Err(Reason::DoneNotRefused { right }),
            (Answer::Later, Some(right)) => Err(Reason::LaterNotRefused { right }),
            (Answer::Done, None) => self.check_done(),
            (Answer::Later, None) => self.check_later(),
        }
    }

    /// Done: the drain of each device that the call waits for said yes.
    fn check_done(&self) -> Result<(), Reason> {
        match self.waits.first_without(self.yes) {
            Some(d) if self.no.has(d) => Err(Reason::DoneAfterNo { d }),
            Some(d) => Err(Reason::DoneUnasked { d }),
            None => Ok(()),
        }
    }

    /// Later: each device that the call waits for was asked for, and not all were forgotten.
    fn check_later(&self) -> Result<(), Reason> {
        if self.waits.is_empty() {
            return Err(Reason::LaterInVain);
        }
        if let Some(d) = self.waits.first_without(self.yes.union(self.no)) {
            return Err(Reason::LaterUnasked { d });
        }
        if self.no.is_empty() { Err(Reason::LaterAfterYes) } else { Ok(()) }
    }
}
