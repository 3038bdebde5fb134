//! What a line changes, once it is known what was said of it.

use crate::device::State;
use crate::fault::Fault;
use crate::keeper::Second;
use crate::page::{Loan, Page, Shown, Use, Words};
use crate::table::{Place, Slot};
use crate::world::World;
use protocol::{Call, Line, Outcome, WORDS};

/// Where more devices may each be forgotten or not, that is not followed.
const MOST_IN_DOUBT: usize = 12;

impl Second {
    pub(crate) fn apply(&mut self, line: Line, came: Option<Outcome>) {
        match (line, came) {
            (Line::Refuse { n }, _) => self.worlds.iter_mut().for_each(|world| world.nos = n),
            (Line::Seed { .. }, _) => self.seeded = true,
            (Line::Load { who, v, word }, Some(Outcome::Loaded(x))) => self.set_word((who, v), word, x),
            (Line::Read { d, p, word }, Some(Outcome::Took(x))) => self.set_away((d, p), word, x),
            (Line::Store { who, v, word, x }, Some(Outcome::Stored)) => self.set_word((who, v), word, x),
            (Line::Write { d, p, word, x } | Line::Kept { d, p, word, x }, Some(Outcome::Put)) => self.set_away((d, p), word, x),
            (Line::Keep { d, p }, Some(Outcome::Kept)) => {
                self.kept.insert((d, p));
            }
            (Line::Call { who, call }, Some(Outcome::Done)) => self.done(who, call),
            (Line::Call { who, call }, Some(Outcome::Later)) => self.later(who, call),
            _ => {}
        }
    }

    fn set_word(&mut self, place: Place, word: u32, x: u64) {
        if let Some(page) = self.table.page_mut(place) {
            page.words.set(word, x);
        }
    }

    fn set_away(&mut self, slot: Slot, word: u32, x: u64) {
        if let Some(page) = self.table.away_mut(slot) {
            page.words.set(word, x);
        }
    }

    fn done(&mut self, who: u32, call: Call) {
        match call {
            Call::Get { v } => {
                let old = self.left.take().filter(|_| self.fault == Some(Fault::OldWords));
                let words = old.map_or_else(Words::noughts, |page| page.words);
                self.table.show((who, v), Shown::Page(Page { at: Use::Home, words }));
            }
            Call::Free { v } => self.idle_page((who, v)),
            Call::Give { v, to, at } => {
                if let Some(shown) = self.table.hide((who, v)) {
                    if self.fault == Some(Fault::GiveKeepsPlace) {
                        self.table.show((who, v), shown.clone());
                    }
                    self.table.show((to, at), shown);
                }
            }
            Call::Open { d } => self.table.held_mut(d).state = State::Open(who),
            Call::Close { d } => {
                self.all_drained();
                self.forgotten(d);
                self.close(who, d);
            }
            Call::Regs { d, v } => self.table.show((who, v), Shown::Registers(d)),
            Call::Lend { v, d, p, writes } => {
                self.table.held_mut(d).lower.insert(p / WORDS);
                self.table.put((who, v), Use::Lent(Loan { d, p, writes }));
            }
            Call::Recall { v } => {
                self.all_drained();
                if let Some(loan) = self.loan((who, v)) {
                    self.forgotten(loan.d);
                    self.home((who, v), loan);
                }
            }
            Call::End { who } => self.end(who),
        }
    }

    fn later(&mut self, who: u32, call: Call) {
        match call {
            Call::Recall { v } => {
                self.all_drained();
                if let Some(loan) = self.loan((who, v)) {
                    self.table.put((who, v), Use::Leaving(loan));
                    if self.fault == Some(Fault::HomeAtNo) {
                        self.home((who, v), loan);
                    }
                }
            }
            Call::Close { d } => {
                self.all_drained();
                self.closing(who, d);
            }
            Call::End { who: ended } => self.end_later(who, call, ended),
            _ => {}
        }
    }

    fn loan(&self, place: Place) -> Option<Loan> {
        self.table.page(place)?.at.loan()
    }

    /// One drain was asked, in every world.
    fn all_drained(&mut self) {
        for world in &mut self.worlds {
            *world = world.drained();
        }
    }

    /// A drain said yes: the IOMMU keeps nothing of the device.
    fn forgotten(&mut self, d: u32) {
        self.kept.retain(|(e, _)| *e != d);
    }

    /// A page comes home. Whatever a device wrote by itself is in it.
    fn home(&mut self, place: Place, loan: Loan) {
        self.table.put(place, Use::Home);
        self.unknown(place, loan);
        if self.fault == Some(Fault::TableDropped) {
            let (from, to): (Slot, Slot) = ((loan.d, loan.p / WORDS * WORDS), (loan.d, (loan.p / WORDS + 1) * WORDS));
            if self.table.slots().range(from..to).next().is_none() {
                self.table.held_mut(loan.d).lower.remove(&(loan.p / WORDS));
            }
        }
    }

    fn unknown(&mut self, place: Place, loan: Loan) {
        if let Some(page) = self.table.page_mut(place)
            && self.seeded
            && loan.writes
        {
            page.words.forget();
        }
    }

    fn idle_page(&mut self, place: Place) {
        if let Some(Shown::Page(page)) = self.table.hide(place) {
            self.left = Some(page);
        }
    }

    /// What was lent is home, the tables are idle, the registers are shown nowhere.
    fn close(&mut self, who: u32, d: u32) {
        for place in self.table.away_from(d) {
            if let Some(loan) = self.loan(place) {
                self.home(place, loan);
            }
        }
        self.hide_registers(who, d);
        self.table.shut(d);
    }

    /// What was lent is leaving, the registers are shown nowhere.
    fn closing(&mut self, who: u32, d: u32) {
        for place in self.table.away_from(d) {
            if let Some(loan) = self.loan(place) {
                self.table.put(place, Use::Leaving(loan));
            }
        }
        self.hide_registers(who, d);
        self.table.held_mut(d).state = State::Closing(who);
    }

    fn hide_registers(&mut self, who: u32, d: u32) {
        if self.fault != Some(Fault::CloseLeavesRegisters) {
            for place in self.table.registers_of(who, d) {
                self.table.hide(place);
            }
        }
    }

    /// Every device of the program was forgotten, and then its pages became idle.
    fn end(&mut self, who: u32) {
        let mut worlds = std::mem::take(&mut self.worlds);
        for world in &mut worlds {
            for _ in self.view(*world).waits_for(0, Call::End { who }) {
                *world = world.drained();
            }
        }
        for d in self.view(World::START).waits_for(0, Call::End { who }) {
            self.forgotten(d);
            self.close(who, d);
        }
        for world in &mut worlds {
            world.shut &= (0..self.table.devices()).filter(|d| self.state(*d) != State::Shut).fold(0, |set, d| set | 1 << d);
        }
        self.set_worlds(worlds);
        for place in self.table.places_of(who) {
            if self.loan(place).is_some() {
                self.table.put(place, Use::Home);
            }
            self.idle_page(place);
        }
    }

    /// Some of the devices were forgotten. They all count as closing, and the worlds say which of them are shut instead.
    fn end_later(&mut self, who: u32, call: Call, ended: u32) {
        let waits: Vec<(World, Vec<u32>)> = self.worlds.iter().map(|world| (*world, self.view(*world).waits_for(who, call))).collect();
        if self.seeded && waits.iter().any(|(_, devices)| devices.len() > MOST_IN_DOUBT) {
            self.lost = true;
            return;
        }
        let worlds: Vec<World> = waits.iter().flat_map(|(world, devices)| world.after_later(devices, self.seeded)).collect();
        for d in self.table.devices_of(ended, World::START) {
            self.closing(ended, d);
            for place in self.table.away_from(d) {
                if let Some(loan) = self.loan(place) {
                    self.unknown(place, loan);
                }
            }
        }
        self.set_worlds(worlds);
        for d in 0..self.table.devices() {
            if self.state(d) == State::Shut {
                self.forgotten(d);
            }
        }
    }
}
