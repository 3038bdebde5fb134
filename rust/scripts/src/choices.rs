//! Which line does something, as things stand.

use crate::moods::Act;
use crate::picks::Picks;
use protocol::{Call, Line, PROGRAMS, WORDS};
use second::{State, Use};

/// Once drains say no by themselves, a program that may have more devices is not ended: too much would be unknown.
const MOST_ENDED: usize = 6;

impl Picks<'_> {
    /// A line that does it. While memory is filled, any place will do for a page.
    pub fn line(&mut self, act: Act, filling: bool) -> Line {
        let doubt = self.keeper.worlds() > 1;
        match act {
            Act::Get => {
                let who = self.program();
                let v = if filling { self.random.below(protocol::PLACES) } else { self.empty(who) };
                call(who, Call::Get { v })
            }
            Act::Free => {
                let (who, v) = if !doubt && self.random.percent(80) { self.home() } else { self.page(|page| page.at != Use::Home) };
                call(who, Call::Free { v })
            }
            Act::Give => self.give(),
            Act::Open => {
                let d = self.free_device();
                let driver = self.keeper.devices()[d as usize].driver;
                call(self.mostly(driver), Call::Open { d })
            }
            Act::Close => {
                let d = self.device(|state| state != State::Shut);
                let by = self.keeper.state(d).by().unwrap_or(0);
                call(self.mostly(by), Call::Close { d })
            }
            Act::Regs => {
                let d = self.device(|state| matches!(state, State::Open(_)));
                let by = self.keeper.state(d).by().unwrap_or(0);
                let who = self.mostly(by);
                let v = if self.random.percent(85) { self.empty(who) } else { self.v() };
                call(who, Call::Regs { d, v })
            }
            Act::Lend => self.lend(),
            Act::Recall => {
                let (who, v) = match self.away() {
                    Some((_, place)) if self.random.percent(85) => place,
                    _ => self.page(|page| page.at != Use::Home),
                };
                call(who, Call::Recall { v })
            }
            Act::End => self.end(),
            Act::Store => {
                let ((who, v), word, x) = (self.reached(), self.word(), self.x());
                Line::Store { who, v, word, x }
            }
            Act::Load => {
                let ((who, v), word) = (self.reached(), self.word());
                Line::Load { who, v, word }
            }
            Act::Read => {
                let ((d, p), word) = (self.slot(), self.word());
                Line::Read { d, p, word }
            }
            Act::Write => {
                let ((d, p), word, x) = (self.slot(), self.word(), self.x());
                Line::Write { d, p, word, x }
            }
            Act::Keep => {
                let (d, p) = self.slot();
                Line::Keep { d, p }
            }
            Act::Kept => {
                let ((d, p), word, x) = (self.kept(), self.word(), self.x());
                Line::Kept { d, p, word, x }
            }
            Act::Refuse => Line::Refuse { n: self.few() },
        }
    }

    /// Mostly this program.
    fn mostly(&mut self, who: u32) -> u32 {
        if self.random.percent(88) { who } else { self.program() }
    }

    fn give(&mut self) -> Line {
        let (who, v) = if self.random.percent(80) { self.home() } else { self.page(|_| true) };
        let to = self.program();
        let at = if self.random.percent(75) { self.empty(to) } else { self.v() };
        call(who, Call::Give { v, to, at })
    }

    fn lend(&mut self) -> Line {
        let d = self.device(|state| matches!(state, State::Open(_)));
        let by = self.keeper.state(d).by().unwrap_or(0);
        let (who, v) = match self.random.below(12) {
            0 => self.page(|_| true),
            1 => self.page(|page| page.at != Use::Home),
            _ => self.home_of(by),
        };
        if self.keeper.page((who, v)).is_none() && self.random.percent(80) {
            return call(by, Call::Get { v: self.empty(by) });
        }
        let p = match self.away() {
            Some(((e, p), _)) if e == d && self.random.percent(12) => p,
            _ => self.p(),
        };
        call(who, Call::Lend { v, d, p, writes: self.random.percent(65) })
    }

    fn end(&mut self) -> Line {
        let who = if self.random.percent(85) { 0 } else { self.program() };
        let first = self.program();
        let least = if self.random.percent(80) { 2 } else { 0 };
        let few = |w: &u32| self.driven_by(*w) <= MOST_ENDED;
        let has = |w: &u32| self.keeper.devices_of(*w) >= least;
        let mut programs = (0..PROGRAMS).map(|k| (first + k) % PROGRAMS).filter(few);
        let ended = match self.keeper.is_seeded() {
            true => programs.clone().find(has).or_else(|| programs.next()).unwrap_or(PROGRAMS),
            false => first,
        };
        call(who, Call::End { who: ended })
    }

    /// How many devices a program may open.
    fn driven_by(&self, who: u32) -> usize {
        self.keeper.devices().iter().filter(|device| device.driver == who).count()
    }

    /// A place to load from or to store at: mostly where there is a page, or registers.
    fn reached(&mut self) -> (u32, u32) {
        let from = (self.program(), self.v());
        if self.random.percent(10) {
            return from;
        }
        self.keeper.shown_from(from).map_or(from, |(place, _)| place)
    }

    /// A load of any word, mostly of a page that is lent or leaving.
    pub fn look(&mut self) -> Line {
        let (who, v) = match self.away() {
            Some((_, place)) if self.random.percent(60) => place,
            _ => self.page(|_| true),
        };
        Line::Load { who, v, word: self.random.below(WORDS) }
    }

    /// How many drains say no: mostly few.
    fn few(&mut self) -> u64 {
        match self.random.below(40) {
            0 => 100,
            1 => u64::MAX,
            2..14 => 0,
            _ => u64::from(1 + self.random.below(4)),
        }
    }
}

fn call(who: u32, call: Call) -> Line {
    Line::Call { who, call }
}
