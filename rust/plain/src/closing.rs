//! close and end: a device is shut once the IOMMU has forgotten it, and a program's pages are idle once all of its are.

use crate::build::has;
use crate::plain::DEVICE_TABLE;
use crate::reason::Reason;
use crate::records::{Place, State};
use crate::rows::Row;
use crate::{Build, Fault, Plain};
use machine::Machine;
use protocol::{Answer, PROGRAMS};

impl<B: Build> Plain<B> {
    /// Hides each place of a program that `is` holds of, upwards; each of those has some of the bits.
    #[inline]
    fn hide_each(&mut self, m: &mut impl Machine, row: &Row, some: u64, is: impl Fn(Place) -> bool) {
        self.tables.each_place(row, some, is, |tables, v| {
            tables.vacate(row.who, v);
            m.hide(row.who, v);
        });
    }

    /// Device d leaves frame 0.
    #[inline]
    fn cut(&mut self, m: &mut impl Machine, d: u32) {
        if !has::<B>(Fault::TopStays) {
            m.put(DEVICE_TABLE, d, 0);
        }
    }

    /// d is shut if it was forgotten, and else closing.
    #[inline]
    fn settle_device(&mut self, row: &Row, d: u32, forgotten: bool) {
        if forgotten {
            self.tables.shut(row, d);
        } else {
            self.tables.begin_closing(row, d);
        }
    }

    /// A device that one has is shut, and closing if the IOMMU says no.
    pub(crate) fn close(&mut self, m: &mut impl Machine, who: u32, d: u32) -> Result<Answer, Reason> {
        Reason::OutOfRange.unless(d < m.devices())?;
        Reason::NotYours.unless(self.tables.state(d).holder() == Some(who))?;
        self.cut(m, d);
        let row = self.tables.row(who);
        if !has::<B>(Fault::RegistersStay) {
            self.hide_each(m, &row, Place::REGISTERS, |place| place.is_registers_of(d));
        }
        let forgotten = self.drain(m, d) || has::<B>(Fault::ClosedAfterNo);
        self.settle_device(&row, d, forgotten);
        Ok(if forgotten { Answer::Done } else { Answer::Later })
    }

    /// Each device of a program leaves frame 0 and is asked once to be forgotten, upwards, also after a no; whether all were.
    #[inline]
    fn close_all(&mut self, m: &mut impl Machine, row: &Row) -> bool {
        let closes = |state: State| match state {
            State::Closing(_) if has::<B>(Fault::EndSkipsClosing) => false,
            _ => state.holder() == Some(row.who),
        };
        let mut left = self.tables.devices(closes);
        let mut all = true;
        while left != 0 {
            let d = left.trailing_zeros();
            left &= left - 1;
            self.cut(m, d);
            let forgotten = self.drain(m, d);
            self.settle_device(row, d, forgotten);
            all &= forgotten;
        }
        all
    }

    /// Each device of p is closed; if all of them were forgotten, p's pages are idle and its places show nothing.
    pub(crate) fn end(&mut self, m: &mut impl Machine, who: u32, p: u32) -> Result<Answer, Reason> {
        Reason::OutOfRange.unless(p < PROGRAMS)?;
        Reason::NotPermitted.unless(who == 0)?;
        let row = self.tables.row(p);
        let stay = has::<B>(Fault::RegistersStay);
        if !stay {
            self.hide_each(m, &row, Place::REGISTERS, Place::is_registers);
        }
        if !self.close_all(m, &row) && !has::<B>(Fault::EndedAfterNo) {
            return Ok(Answer::Later);
        }
        self.hide_each(m, &row, Place::SHOWN, |place| !place.is_nothing() & !(stay & place.is_registers()));
        Ok(Answer::Done)
    }
}
