//! open and regs: devices that a program drives by itself.

use crate::build::has;
use crate::plain::{DEVICE_TABLE, clear, in_space};
use crate::reason::Reason;
use crate::records::{Place, State};
use crate::{Build, Fault, Plain};
use machine::Machine;
use protocol::Answer;

impl<B: Build> Plain<B> {
    /// `who` has device d open.
    #[inline]
    pub(crate) fn open_by(&self, who: u32, d: u32) -> Result<(), Reason> {
        Reason::NotYours.unless(self.tables.state(d) == State::Open(who))
    }

    /// No other program than `who` has a device of d's group.
    #[inline]
    fn group_is_free(&self, m: &impl Machine, who: u32, d: u32) -> bool {
        let group = m.group(d);
        (0..m.devices()).all(|e| self.tables.state(e).holder().is_none_or(|other| other == who) || m.group(e) != group)
    }

    /// A device that was shut is open, with an upper table of noughts.
    pub(crate) fn open(&mut self, m: &mut impl Machine, who: u32, d: u32) -> Result<Answer, Reason> {
        Reason::OutOfRange.unless(d < m.devices())?;
        Reason::NotYours.unless(m.driver(d) == who)?;
        Reason::Held.unless(self.tables.state(d) == State::Shut)?;
        Reason::Held.unless(has::<B>(Fault::GroupNotAsked) || self.group_is_free(m, who, d))?;
        let f = self.idle()?;
        if !has::<B>(Fault::UpperNotCleared) {
            clear(m, f);
        }
        self.tables.open(who, d, f);
        m.put(DEVICE_TABLE, d, u64::from(f) + 1);
        self.next = f + 1;
        Ok(Answer::Done)
    }

    /// A place shows the registers of a device that one has open.
    pub(crate) fn map_registers(&mut self, m: &mut impl Machine, who: u32, d: u32, v: u32) -> Result<Answer, Reason> {
        Reason::OutOfRange.unless(d < m.devices())?;
        in_space(v)?;
        if has::<B>(Fault::WrongOrderOfReasons) {
            self.open_by(who, d)?;
        }
        self.vacant(who, v)?;
        self.open_by(who, d)?;
        m.show_registers(who, v, d);
        self.tables.set_place(who, v, Place::registers(d));
        Ok(Answer::Done)
    }
}
