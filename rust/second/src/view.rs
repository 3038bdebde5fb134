//! What the rules say of a line, as things may stand.

use crate::device::State;
use crate::expect::Expect;
use crate::fault::Fault;
use crate::page::{Page, Shown, Use};
use crate::refusal::{Refusal, must};
use crate::table::{Place, Slot, Table};
use crate::world::World;
use protocol::{Call, Line, Outcome, PAGES, PLACES, PROGRAMS, WORDS};
use std::collections::BTreeSet;

/// The table of pages, seen as one world has it.
pub struct View<'a> {
    pub table: &'a Table,
    pub world: World,
    pub kept: &'a BTreeSet<Slot>,
    pub seeded: bool,
    pub fault: Option<Fault>,
}

impl View<'_> {
    /// What may come of a line.
    pub fn of(&self, line: Line) -> Expect {
        match line {
            Line::Call { who, call } => self.call(who, call),
            Line::Load { who, v, word } => self.reach((who, v), word, |page| self.load(page, word)),
            Line::Store { who, v, word, .. } => self.reach((who, v), word, |_| Expect::Exactly(Outcome::Stored)),
            Line::Read { d, p, word } => self.slot(d, p, word, |at| match self.linked(at) {
                Some(page) => self.take(page, word),
                None => Expect::Exactly(Outcome::Miss),
            }),
            Line::Write { d, p, word, .. } => self.slot(d, p, word, |at| match self.linked(at) {
                Some(page) if self.may_write(page) => Expect::Exactly(Outcome::Put),
                _ => Expect::Exactly(Outcome::Miss),
            }),
            Line::Keep { d, p } => self.slot(d, p, 0, |at| match self.linked(at) {
                Some(_) => Expect::Exactly(Outcome::Kept),
                None => Expect::Exactly(Outcome::Nothing),
            }),
            Line::Kept { d, p, word, .. } => self.slot(d, p, word, |at| self.by_kept(at)),
            Line::Refuse { .. } | Line::Seed { .. } | Line::New => Expect::Silent,
        }
    }

    fn call(&self, who: u32, call: Call) -> Expect {
        if let Err(refusal) = self.refuse(who, call) {
            return Expect::Exactly(refusal.into());
        }
        match (self.waits_for(who, call).is_empty(), self.world.nos, self.seeded) {
            (true, ..) | (false, 0, false) => Expect::Exactly(Outcome::Done),
            (false, 0, true) => Expect::OneOf(vec![Outcome::Done, Outcome::Later]),
            _ if self.fault == Some(Fault::LaterIsDone) && matches!(call, Call::Close { .. }) => Expect::Exactly(Outcome::Done),
            _ => Expect::Exactly(Outcome::Later),
        }
    }

    /// The first reason, in the order of their table, why a call is refused.
    fn refuse(&self, who: u32, call: Call) -> Result<(), Refusal> {
        self.program(who)?;
        match call {
            Call::Get { v } => {
                self.place(v)?;
                self.nothing_at((who, v))?;
                self.one_idle()
            }
            Call::Free { v } => {
                self.place(v)?;
                self.home(self.page((who, v))?)
            }
            Call::Give { v, to, at } => {
                self.place(v)?;
                self.program(to)?;
                self.place(at)?;
                let page = self.page((who, v))?;
                self.nothing_at((to, at))?;
                self.home(page)
            }
            Call::Open { d } => {
                self.device(d)?;
                must(self.table.held(d).device.driver == who, Refusal::NotOwn)?;
                must(self.state(d) == State::Shut && self.group_is_free(who, d), Refusal::Busy)?;
                self.one_idle()
            }
            Call::Close { d } => {
                self.device(d)?;
                must(self.state(d).by() == Some(who), Refusal::NotOwn)
            }
            Call::Regs { d, v } => {
                self.device(d)?;
                self.place(v)?;
                self.nothing_at((who, v))?;
                self.open_by(who, d)
            }
            Call::Lend { v, d, p, .. } => {
                self.place(v)?;
                self.device(d)?;
                must(p < PAGES, Refusal::NoSuch)?;
                let page = self.page((who, v))?;
                if self.fault == Some(Fault::HomeBeforeTaken) {
                    self.home(page)?;
                }
                must(!self.taken((d, p)), Refusal::Taken)?;
                self.home(page)?;
                self.open_by(who, d)?;
                if self.table.held(d).lower.contains(&(p / WORDS)) { Ok(()) } else { self.one_idle() }
            }
            Call::Recall { v } => {
                self.place(v)?;
                let page = self.page((who, v))?;
                must(self.at(page) != Use::Home, Refusal::Home)
            }
            Call::End { who: ended } => {
                self.program(ended)?;
                must(who == 0, Refusal::NotZero)
            }
        }
    }

    /// The devices that a call waits for, in the order in which they are drained.
    pub fn waits_for(&self, who: u32, call: Call) -> Vec<u32> {
        match call {
            Call::Close { d } => vec![d],
            Call::Recall { v } => self.table.page((who, v)).and_then(|page| page.at.loan()).map(|loan| loan.d).into_iter().collect(),
            Call::End { who } => {
                let mut devices = self.table.devices_of(who, self.world);
                if self.fault == Some(Fault::EndForgetsDevice) {
                    devices.pop();
                }
                devices
            }
            _ => Vec::new(),
        }
    }

    fn program(&self, who: u32) -> Result<(), Refusal> {
        must(who < PROGRAMS, Refusal::NoSuch)
    }

    fn place(&self, v: u32) -> Result<(), Refusal> {
        let more = u32::from(self.fault == Some(Fault::PlaceTooMany));
        must(v < PLACES + more, Refusal::NoSuch)
    }

    fn device(&self, d: u32) -> Result<(), Refusal> {
        must(d < self.table.devices(), Refusal::NoSuch)
    }

    fn page(&self, place: Place) -> Result<&Page, Refusal> {
        self.table.page(place).ok_or(Refusal::NoPage)
    }

    fn nothing_at(&self, place: Place) -> Result<(), Refusal> {
        must(self.table.shown(place).is_none(), Refusal::Taken)
    }

    fn home(&self, page: &Page) -> Result<(), Refusal> {
        must(self.at(page) == Use::Home, Refusal::Home)
    }

    fn open_by(&self, who: u32, d: u32) -> Result<(), Refusal> {
        must(self.state(d) == State::Open(who), Refusal::NotOwn)
    }

    fn one_idle(&self) -> Result<(), Refusal> {
        let shut = (0..self.table.devices()).filter(|d| self.world.has_shut(*d));
        let idle = self.table.idle() + shut.map(|d| self.table.held(d).tables()).sum::<i64>();
        must(idle > 0, Refusal::Full)
    }

    /// No other program has a device of the group of d.
    fn group_is_free(&self, who: u32, d: u32) -> bool {
        let group = self.table.held(d).device.group;
        let of_group = |e: &u32| self.table.held(*e).device.group == group;
        let by_another = |e: u32| self.state(e).by().is_some_and(|by| by != who);
        self.fault == Some(Fault::GroupUnchecked) || !(0..self.table.devices()).filter(of_group).any(by_another)
    }

    fn state(&self, d: u32) -> State {
        if self.world.has_shut(d) { State::Shut } else { self.table.held(d).state }
    }

    /// Where a page is: what was leaving a device that is shut is home.
    fn at(&self, page: &Page) -> Use {
        match page.at {
            Use::Leaving(loan) if self.world.has_shut(loan.d) => Use::Home,
            at => at,
        }
    }

    fn taken(&self, slot: Slot) -> bool {
        match self.table.away(slot).map(|page| self.at(page)) {
            None | Some(Use::Home) => false,
            Some(Use::Lent(_)) => true,
            Some(Use::Leaving(_)) => self.fault != Some(Fault::LeavingIsFree),
        }
    }

    /// A load or a store.
    fn reach(&self, (who, v): Place, word: u32, page: impl FnOnce(&Page) -> Expect) -> Expect {
        if self.program(who).is_err() || self.place(v).is_err() || word >= WORDS {
            return Expect::Exactly(Refusal::NoSuch.into());
        }
        match self.table.shown((who, v)) {
            None => Expect::Exactly(Outcome::Fault),
            Some(Shown::Registers(_)) => Expect::Exactly(Outcome::Poked),
            Some(Shown::Page(there)) => page(there),
        }
    }

    /// A line that names a page of a device.
    fn slot(&self, d: u32, p: u32, word: u32, then: impl FnOnce(Slot) -> Expect) -> Expect {
        if self.device(d).is_err() || p >= PAGES || word >= WORDS {
            return Expect::Exactly(Refusal::NoSuch.into());
        }
        then((d, p))
    }

    /// The page that the tables in memory have there: what is lent, and not what is leaving.
    fn linked(&self, slot: Slot) -> Option<&Page> {
        self.table.away(slot).filter(|page| matches!(page.at, Use::Lent(_)))
    }

    fn may_write(&self, page: &Page) -> bool {
        page.at.is_written() || self.fault == Some(Fault::ReadMayWrite)
    }

    /// With a `seed`, a device may write by itself in what is lent to it to be written, or is leaving it.
    fn is_exposed(&self, page: &Page) -> bool {
        self.seeded && self.at(page).is_written()
    }

    fn load(&self, page: &Page, word: u32) -> Expect {
        match page.words.get(word) {
            Some(x) if !self.is_exposed(page) => Expect::Exactly(Outcome::Loaded(x)),
            _ => Expect::AnyLoad,
        }
    }

    fn take(&self, page: &Page, word: u32) -> Expect {
        match page.words.get(word) {
            Some(x) if !self.is_exposed(page) => Expect::Exactly(Outcome::Took(x)),
            _ => Expect::AnyTake,
        }
    }

    /// A write by a mapping that the IOMMU kept. With a `seed` it may have kept any that is not forgotten.
    fn by_kept(&self, slot: Slot) -> Expect {
        let there = self.table.away(slot).filter(|page| self.at(page) != Use::Home && self.may_write(page));
        match there {
            Some(_) if self.seeded => Expect::OneOf(vec![Outcome::Put, Outcome::Miss]),
            Some(_) if self.kept.contains(&slot) => Expect::Exactly(Outcome::Put),
            _ => Expect::Exactly(Outcome::Miss),
        }
    }
}
