//! The keeper: it sets up its tables and the machine, and serves calls.

use crate::build::has;
use crate::reason::Reason;
use crate::tables::Tables;
use crate::{Build, Fault, Sound};
use machine::{Keeper, Machine};
use protocol::{Answer, Call, PLACES, WORDS};
use std::marker::PhantomData;

/// The frame in which the device table is.
pub(crate) const DEVICE_TABLE: u32 = 0;

/// The keeper, built with a mistake or without.
pub struct Plain<B: Build = Sound> {
    pub(crate) tables: Tables,
    /// Where the next search for an idle frame begins.
    pub(crate) next: u32,
    /// What a mistake remembers: of which devices a drain has said yes, and that frame 0 is not noughts yet.
    pub(crate) forgotten: u32,
    pub(crate) unready: bool,
    build: PhantomData<B>,
}

impl<B: Build> Plain<B> {
    /// With tables for a machine of so many frames.
    pub fn new(frames: u32) -> Plain<B> {
        Plain { tables: Tables::new(frames), next: 1, forgotten: 0, unready: false, build: PhantomData }
    }

    /// An idle frame, or none is there.
    #[inline]
    pub(crate) fn idle(&self) -> Result<u32, Reason> {
        self.tables.idle(self.next).ok_or(Reason::NoFrame)
    }

    /// The frame of one's page at a place.
    #[inline]
    pub(crate) fn own_page(&self, who: u32, v: u32) -> Result<u32, Reason> {
        self.tables.place(who, v).frame().ok_or(Reason::NoPage)
    }

    #[inline]
    fn call(&mut self, m: &mut impl Machine, who: u32, call: Call) -> Result<Answer, Reason> {
        match call {
            Call::Get { v } => self.get(m, who, v),
            Call::Free { v } => self.free(m, who, v),
            Call::Give { v, to, at } => self.give(m, who, v, to, at),
            Call::Open { d } => self.open(m, who, d),
            Call::Close { d } => self.close(m, who, d),
            Call::Regs { d, v } => self.map_registers(m, who, d, v),
            Call::Lend { v, d, p, writes } => self.lend(m, who, v, d, p, writes),
            Call::Recall { v } => self.recall(m, who, v),
            Call::End { who: p } => self.end(m, who, p),
        }
    }
}

impl<B: Build> Keeper for Plain<B> {
    fn boot(&mut self, m: &mut impl Machine) {
        self.tables.set_up(m.frames());
        self.next = 1;
        self.forgotten = 0;
        self.unready = has::<B>(Fault::StartedTooSoon);
        if !self.unready {
            clear(m, DEVICE_TABLE);
        }
        m.start();
    }

    fn serve(&mut self, m: &mut impl Machine, who: u32, call: Call) -> Answer {
        if has::<B>(Fault::StartedTooSoon) && self.unready {
            clear(m, DEVICE_TABLE);
            self.unready = false;
        }
        self.call(m, who, call).unwrap_or_else(Answer::from)
    }
}

/// A place of an address space.
#[inline]
pub(crate) fn in_space(v: u32) -> Result<(), Reason> {
    Reason::OutOfRange.unless(v < PLACES)
}

/// Writes 0 into every word of a frame.
#[inline]
pub(crate) fn clear(m: &mut impl Machine, frame: u32) {
    for k in 0..WORDS {
        m.put(frame, k, 0);
    }
}
