//! recall: a page comes home, once the IOMMU has forgotten the device that has it.

use crate::build::has;
use crate::plain::{DEVICE_TABLE, in_space};
use crate::reason::Reason;
use crate::records::Loan;
use crate::{Build, Fault, Plain};
use machine::Machine;
use protocol::{Answer, WORDS};

impl<B: Build> Plain<B> {
    /// Asks the IOMMU once to forget d; whether it has.
    #[inline]
    pub(crate) fn drain(&mut self, m: &mut impl Machine, d: u32) -> bool {
        let yes = m.drain(d);
        if has::<B>(Fault::OldYesCounts) {
            self.forgotten = self.forgotten & !(1 << d) | u32::from(yes) << d;
        }
        yes
    }

    /// Clears the entry of a page.
    #[inline]
    fn unmap(&self, m: &mut impl Machine, loan: Loan) {
        let p = loan.page_of_device();
        m.put(self.tables.lower(loan.device(), p), p % WORDS, 0);
    }

    /// The IOMMU is asked while the entry is there still; then the tables are looked at on the way to it, and it is cleared.
    fn drain_and_unmap(&mut self, m: &mut impl Machine, loan: Loan) -> bool {
        let (d, p) = (loan.device(), loan.page_of_device());
        let yes = self.drain(m, d);
        let way = [(DEVICE_TABLE, d), (self.tables.upper(d), p / WORDS), (self.tables.lower(d, p), p % WORDS)];
        let [.., entry] = way.map(|(frame, word)| m.get(frame, word));
        if entry != 0 {
            self.unmap(m, loan);
        }
        yes
    }

    /// Whether the page is home by what a mistake goes by, before the IOMMU is asked; none if there is no such mistake.
    #[inline]
    fn unasked(&self, loan: Loan) -> Option<bool> {
        let old_yes = self.forgotten >> loan.device() & 1 == 1;
        if has::<B>(Fault::HomeUnasked) || has::<B>(Fault::OldYesCounts) && loan.is_leaving() && old_yes {
            return Some(true);
        }
        (has::<B>(Fault::LaterUnasked) && !loan.is_leaving()).then_some(false)
    }

    /// Whether the IOMMU has forgotten the device of a page, whose entry is cleared.
    #[inline]
    fn settle(&mut self, m: &mut impl Machine, loan: Loan) -> bool {
        if let Some(home) = self.unasked(loan) {
            return home;
        }
        let d = if has::<B>(Fault::OtherDeviceAsked) { (loan.device() + 1) % m.devices() } else { loan.device() };
        self.drain(m, d) || has::<B>(Fault::HomeAfterNo)
    }

    /// One's page at v, which a device has, comes home, and if the IOMMU says no it is leaving.
    pub(crate) fn recall(&mut self, m: &mut impl Machine, who: u32, v: u32) -> Result<Answer, Reason> {
        in_space(v)?;
        let f = self.own_page(who, v)?;
        let loan = self.tables.loan(f);
        Reason::WrongLoan.unless(loan != Loan::HOME)?;
        let home = if has::<B>(Fault::AskedBeforeCleared) {
            self.drain_and_unmap(m, loan)
        } else {
            if !has::<B>(Fault::EntryStays) {
                self.unmap(m, loan);
            }
            self.settle(m, loan)
        };
        self.tables.set_loan(who, v, f, if home { Loan::HOME } else { loan.leaving() });
        Ok(if home { Answer::Done } else { Answer::Later })
    }
}
