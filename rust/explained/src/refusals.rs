//! When a call is refused: the first reason that applies, in the order of the table of refusals.

use crate::devices::Hold;
use crate::pages::{Loan, PageId};
use crate::places::Shown;
use crate::state::State;
use protocol::{Call, PAGES, PLACES, PROGRAMS};

const OUT_OF_RANGE: u32 = 1;
const NO_PAGE: u32 = 2;
const TAKEN: u32 = 3;
const WRONG_LOAN: u32 = 4;
const NOT_ONES_OWN: u32 = 5;
const HELD: u32 = 6;
const FULL: u32 = 7;
const NOT_THE_FIRST: u32 = 8;

type Refused = Result<(), u32>;

fn unless(holds: bool, number: u32) -> Refused {
    if holds { Ok(()) } else { Err(number) }
}

fn place(v: u32) -> Refused {
    unless(v < PLACES, OUT_OF_RANGE)
}

fn program(who: u32) -> Refused {
    unless(who < PROGRAMS, OUT_OF_RANGE)
}

impl State {
    /// The number by which a call is refused now, if it is.
    pub fn refusal(&self, who: u32, call: Call) -> Option<u32> {
        self.may(who, call).err()
    }

    fn may(&self, who: u32, call: Call) -> Refused {
        match call {
            Call::Get { v } => {
                place(v)?;
                self.shows_nothing(who, v)?;
                self.some_idle()
            }
            Call::Free { v } => {
                place(v)?;
                self.is_home(self.own_page(who, v)?)
            }
            Call::Give { v, to, at } => {
                place(v)?;
                program(to)?;
                place(at)?;
                let page = self.own_page(who, v)?;
                self.shows_nothing(to, at)?;
                self.is_home(page)
            }
            Call::Open { d } => {
                self.there(d)?;
                self.may_open(who, d)?;
                self.some_idle()
            }
            Call::Close { d } => {
                self.there(d)?;
                unless(self.hold(d).is_of(who), NOT_ONES_OWN)
            }
            Call::Regs { d, v } => {
                self.there(d)?;
                place(v)?;
                self.shows_nothing(who, v)?;
                unless(self.hold(d) == Hold::Open(who), NOT_ONES_OWN)
            }
            Call::Lend { v, d, p, writes: _ } => {
                place(v)?;
                self.there(d)?;
                unless(p < PAGES, OUT_OF_RANGE)?;
                let page = self.own_page(who, v)?;
                unless(self.found(d, p).is_none(), TAKEN)?;
                self.is_home(page)?;
                unless(self.hold(d) == Hold::Open(who), NOT_ONES_OWN)?;
                if self.has_lower_table(d, p) { Ok(()) } else { self.some_idle() }
            }
            Call::Recall { v } => {
                place(v)?;
                let page = self.own_page(who, v)?;
                unless(self.pages[page].loan != Loan::Home, WRONG_LOAN)
            }
            Call::End { who: ended } => {
                program(ended)?;
                unless(who == 0, NOT_THE_FIRST)
            }
        }
    }

    fn there(&self, d: u32) -> Refused {
        unless(self.device(d).is_some(), OUT_OF_RANGE)
    }

    fn hold(&self, d: u32) -> Hold {
        self.devices[d as usize].hold
    }

    fn own_page(&self, who: u32, v: u32) -> Result<PageId, u32> {
        self.places.page(who, v).ok_or(NO_PAGE)
    }

    fn shows_nothing(&self, who: u32, v: u32) -> Refused {
        unless(self.places.at(who, v) == Shown::Nothing, TAKEN)
    }

    fn is_home(&self, page: PageId) -> Refused {
        unless(self.pages[page].loan == Loan::Home, WRONG_LOAN)
    }

    fn some_idle(&self) -> Refused {
        unless(self.idle > 0, FULL)
    }

    pub fn has_lower_table(&self, d: u32, p: u32) -> bool {
        self.devices[d as usize].tables.has(p)
    }

    /// It is one's own to open, it is shut, and no other program has a device of its group.
    fn may_open(&self, who: u32, d: u32) -> Refused {
        let device = &self.devices[d as usize];
        unless(device.fixed.driver == who, NOT_ONES_OWN)?;
        unless(device.hold == Hold::Shut, HELD)?;
        let foreign = |group| self.devices.iter().any(|e| e.fixed.group == group && e.hold.holder().is_some_and(|other| other != who));
        unless(!foreign(device.fixed.group), HELD)
    }
}
