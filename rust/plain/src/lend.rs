//! lend: a page of a program is mapped for a device.

use crate::build::has;
use crate::plain::clear;
use crate::reason::Reason;
use crate::records::Loan;
use crate::{Build, Fault, Plain};
use machine::Machine;
use protocol::{Answer, PAGES, PLACES, WORDS};

impl<B: Build> Plain<B> {
    /// No page is lent to d at p, or leaving it there.
    #[inline]
    fn untaken(&self, d: u32, p: u32) -> Result<(), Reason> {
        let taken = self.tables.is_taken(d, p, |loan| !has::<B>(Fault::LeavingTakenAgain) || !loan.is_leaving());
        Reason::Occupied.unless(!taken)
    }

    /// The frame of a page that may be lent.
    #[inline]
    fn lendable(&self, devices: u32, who: u32, v: u32, d: u32, p: u32) -> Result<u32, Reason> {
        Reason::OutOfRange.unless(v < PLACES && d < devices && p < PAGES)?;
        let f = self.own_page(who, v)?;
        if has::<B>(Fault::WrongOrderOfReasons) {
            self.at_home(f)?;
        }
        self.untaken(d, p)?;
        if !has::<B>(Fault::LentTwice) {
            self.at_home(f)?;
        }
        self.open_by(who, d)?;
        Ok(f)
    }

    /// The entry of a lower table for a frame.
    #[inline]
    fn entry(&self, f: u32, writes: bool) -> u64 {
        let named = if has::<B>(Fault::WrongFrameEntered) { f - 1 } else { f };
        2 * u64::from(named) + 1 + u64::from(writes || has::<B>(Fault::ReadIsWrite))
    }

    /// The lower table that is missing, made noughts, takes the entry, and only then is linked.
    fn link(&mut self, m: &mut impl Machine, d: u32, p: u32, entry: u64) -> Result<(), Reason> {
        let table = self.idle()?;
        if !has::<B>(Fault::LowerNotCleared) {
            clear(m, table);
        }
        m.put(table, p % WORDS, entry);
        m.put(self.tables.upper(d), p / WORDS, u64::from(table) + 1);
        self.tables.add_lower(d, p, table);
        self.next = table + 1;
        Ok(())
    }

    /// One's page at v, which is home, is lent to a device that one has open.
    pub(crate) fn lend(&mut self, m: &mut impl Machine, who: u32, v: u32, d: u32, p: u32, writes: bool) -> Result<Answer, Reason> {
        let f = self.lendable(m.devices(), who, v, d, p)?;
        let entry = self.entry(f, writes);
        match self.tables.lower(d, p) {
            0 => self.link(m, d, p, entry)?,
            table => m.put(table, p % WORDS, entry),
        }
        self.tables.set_loan(who, v, f, Loan::lent(d, p, writes));
        Ok(Answer::Done)
    }
}
