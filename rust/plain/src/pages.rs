//! get, free and give: pages of programs.

use crate::build::has;
use crate::plain::{clear, in_space};
use crate::reason::Reason;
use crate::records::{Loan, Place};
use crate::{Build, Fault, Plain};
use machine::Machine;
use protocol::{Answer, PROGRAMS};

impl<B: Build> Plain<B> {
    /// A place shows nothing.
    #[inline]
    pub(crate) fn vacant(&self, who: u32, v: u32) -> Result<(), Reason> {
        Reason::Occupied.unless(self.tables.place(who, v) == Place::NOTHING)
    }

    /// The page in a frame is home.
    #[inline]
    pub(crate) fn at_home(&self, f: u32) -> Result<(), Reason> {
        Reason::WrongLoan.unless(self.tables.loan(f) == Loan::HOME)
    }

    /// The frame for a new page.
    #[inline]
    fn frame_for_page(&self) -> Result<u32, Reason> {
        if has::<B>(Fault::FrameTwice) {
            return Ok(self.tables.no_page().unwrap_or(1));
        }
        self.idle()
    }

    /// An idle frame, made noughts, becomes one's page at v.
    pub(crate) fn get(&mut self, m: &mut impl Machine, who: u32, v: u32) -> Result<Answer, Reason> {
        in_space(v)?;
        self.vacant(who, v)?;
        let f = self.frame_for_page()?;
        if !has::<B>(Fault::NotCleared) {
            clear(m, f);
        }
        self.tables.settle(who, v, f);
        m.show(who, v, f);
        self.next = f + 1;
        Ok(Answer::Done)
    }

    /// One's page at v, which is home, becomes idle.
    pub(crate) fn free(&mut self, m: &mut impl Machine, who: u32, v: u32) -> Result<Answer, Reason> {
        in_space(v)?;
        let f = self.own_page(who, v)?;
        if has::<B>(Fault::RefusalChanges) && self.tables.loan(f) != Loan::HOME {
            m.hide(who, v);
        }
        self.at_home(f)?;
        if !has::<B>(Fault::FreedStillShown) {
            m.hide(who, v);
        }
        self.tables.vacate(who, v);
        Ok(Answer::Done)
    }

    /// One's page at v, which is home, becomes that of `to` at another place.
    pub(crate) fn give(&mut self, m: &mut impl Machine, who: u32, v: u32, to: u32, at: u32) -> Result<Answer, Reason> {
        in_space(v)?;
        Reason::OutOfRange.unless(to < PROGRAMS)?;
        in_space(at)?;
        let f = self.own_page(who, v)?;
        if has::<B>(Fault::WrongOrderOfReasons) {
            self.at_home(f)?;
        }
        self.vacant(to, at)?;
        self.at_home(f)?;
        if !has::<B>(Fault::OldPlaceStillShown) {
            m.hide(who, v);
        }
        self.tables.set_place(who, v, Place::NOTHING);
        self.tables.settle(to, at, f);
        m.show(to, at, f);
        Ok(Answer::Done)
    }
}
