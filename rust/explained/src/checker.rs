use crate::access::Access;
use crate::state::State;
use crate::underway::Underway;
use crate::{Reason, Shape};
use protocol::{Answer, Call, Event, PROGRAMS};
use std::fmt;

/// Hears the events of one machine, from its start, and says of each whether it is explained.
#[derive(Clone, Debug)]
pub struct Checker {
    state: State,
    /// The call that was asked and is not told yet.
    call: Option<Underway>,
}

impl Checker {
    /// # Panics
    ///
    /// If the machine has more devices than a machine can have.
    pub fn new(shape: &Shape) -> Checker {
        Checker { state: State::new(shape), call: None }
    }

    /// Whether the log so far, with this event, is explained. If it is not, all is as if the event had not come.
    pub fn event(&mut self, event: &Event) -> Result<(), Reason> {
        match *event {
            Event::Asked { who, call } => self.asked(who, call),
            Event::Told { who, call, answer } => self.told(who, call, answer),
            Event::Loaded { who, v, word, x } => self.between_calls()?.loaded(who, v, word, x),
            Event::Stored { who, v, word, x } => self.between_calls()?.stored(who, v, word, x),
            Event::Faulted { who, v } => self.between_calls()?.faulted(who, v),
            Event::Poked { who, v, d } => self.between_calls()?.poked(who, v, d),
            Event::Took { d, p, frame, word, x } => self.state.access(self.call.as_mut(), Access { d, p, frame, word, x, writes: false }),
            Event::Put { d, p, frame, word, x } => self.state.access(self.call.as_mut(), Access { d, p, frame, word, x, writes: true }),
            Event::Missed { d, p, writes } => self.state.missed(self.call.as_ref(), d, p, writes),
            Event::Drained { d, said } => self.drained(d, said),
        }
    }

    fn asked(&mut self, who: u32, call: Call) -> Result<(), Reason> {
        if self.call.is_some() {
            return Err(Reason::AskedInCall);
        }
        if who >= PROGRAMS {
            return Err(Reason::NoSuchProgram);
        }
        self.state.calls += 1;
        self.call = Some(Underway::new(&self.state, who, call));
        Ok(())
    }

    fn told(&mut self, who: u32, call: Call, answer: Answer) -> Result<(), Reason> {
        let asked = self.call.as_ref().ok_or(Reason::ToldUnasked)?;
        if (asked.who, asked.call) != (who, call) {
            return Err(Reason::ToldAnother);
        }
        asked.check(answer)?;
        if asked.refusal.is_none() && !asked.acted {
            self.state.act(who, call, asked.yes);
        }
        self.call = None;
        Ok(())
    }

    fn drained(&mut self, d: u32, said: bool) -> Result<(), Reason> {
        self.state.device(d).ok_or(Reason::NoSuchDevice)?;
        self.call.as_mut().ok_or(Reason::DrainedBetweenCalls)?.drained(d, said)
    }

    /// Programs run only between calls.
    fn between_calls(&mut self) -> Result<&mut State, Reason> {
        if self.call.is_some() { Err(Reason::ProgramInCall) } else { Ok(&mut self.state) }
    }
}

/// The first event of a log that the rules do not explain after those before it, counted from 0.
#[derive(Clone, Copy, Debug, PartialEq, Eq)]
pub struct Unexplained {
    pub at: usize,
    pub why: Reason,
}

impl fmt::Display for Unexplained {
    fn fmt(&self, f: &mut fmt::Formatter<'_>) -> fmt::Result {
        write!(f, "event {}: {}", self.at, self.why)
    }
}

impl std::error::Error for Unexplained {}

/// Whether the rules explain a log, the earliest event first, from the start of a machine.
pub fn check(machine: &Shape, log: &[Event]) -> Result<(), Unexplained> {
    let mut checker = Checker::new(machine);
    for (at, event) in log.iter().enumerate() {
        checker.event(event).map_err(|why| Unexplained { at, why })?;
    }
    Ok(())
}
