//! What each call does when it takes effect.

use crate::devices::{DeviceSet, Hold};
use crate::pages::{Loan, Mapping, PageId};
use crate::places::Shown;
use crate::state::State;
use protocol::{Call, PLACES};

impl State {
    /// A call that is not refused takes effect; `forgotten` are the devices whose drain said yes during it.
    pub fn act(&mut self, who: u32, call: Call, forgotten: DeviceSet) {
        match call {
            Call::Get { v } => {
                let page = self.pages.add(self.calls);
                self.places.show(who, v, Shown::Page(page));
                self.idle -= 1;
            }
            Call::Free { v } => {
                if let Some(page) = self.places.page(who, v) {
                    self.places.show(who, v, Shown::Nothing);
                    self.make_idle(page);
                }
            }
            Call::Give { v, to, at } => {
                let page = self.places.at(who, v);
                self.places.show(who, v, Shown::Nothing);
                self.places.show(to, at, page);
            }
            Call::Open { d } => {
                self.devices[d as usize].hold = Hold::Open(who);
                self.idle -= 1;
            }
            Call::Close { d } => self.close(d, forgotten),
            Call::Regs { d, v } => {
                self.places.show(who, v, Shown::Registers(d));
                self.devices[d as usize].registers.push((who, v));
            }
            Call::Lend { v, d, p, writes } => {
                if let Some(page) = self.places.page(who, v) {
                    self.lend(page, Mapping { d, p, writes });
                }
            }
            Call::Recall { v } => {
                if let Some(page) = self.places.page(who, v) {
                    self.recall(page, forgotten);
                }
            }
            Call::End { who: ended } => self.end(ended, forgotten),
        }
    }

    /// A page is lent, and a lower table linked where there is none.
    fn lend(&mut self, page: PageId, to: Mapping) {
        if !self.has_lower_table(to.d, to.p) {
            self.devices[to.d as usize].tables.link(to.p);
            self.idle -= 1;
        }
        self.devices[to.d as usize].tables.set(to.p, Some(page));
        self.pages[page].loan = Loan::Lent(to);
    }

    /// A page is home once its device is forgotten, and leaving until then.
    fn recall(&mut self, page: PageId, forgotten: DeviceSet) {
        let loan = self.pages[page].loan;
        self.pages[page].loan = match loan.mapping() {
            Some(m) if forgotten.has(m.d) => {
                self.devices[m.d as usize].tables.set(m.p, None);
                Loan::Home
            }
            _ => loan.leaving(),
        };
    }

    /// A device is shut once it is forgotten, and closing until then. Its registers are shown nowhere, either way.
    fn close(&mut self, d: u32, forgotten: DeviceSet) {
        let device = &mut self.devices[d as usize];
        for (who, v) in device.registers.drain(..) {
            self.places.show(who, v, Shown::Nothing);
        }
        let Some(holder) = device.hold.holder() else { return };
        let shut = forgotten.has(d);
        if shut {
            self.idle += 1 + device.tables.clear();
            device.hold = Hold::Shut;
        } else if device.hold == Hold::Closing(holder) {
            return;
        } else {
            device.hold = Hold::Closing(holder);
        }
        // What is lent to a device is its holder's.
        for page in self.places.pages(holder) {
            let loan = &mut self.pages[page].loan;
            if loan.mapping().is_some_and(|m| m.d == d) {
                *loan = if shut { Loan::Home } else { loan.leaving() };
            }
        }
    }

    /// Each device of a program is closed by itself; once all are forgotten, its pages are idle and its places show nothing.
    fn end(&mut self, who: u32, forgotten: DeviceSet) {
        let held = self.held_by(who);
        for d in (0..).take(self.devices.len()).filter(|d| held.has(*d)) {
            self.close(d, forgotten);
        }
        if held.first_without(forgotten).is_some() {
            return;
        }
        for v in 0..PLACES {
            if let Some(page) = self.places.page(who, v) {
                self.make_idle(page);
            }
        }
        self.places.clear(who);
    }

    /// A page is nobody's any more.
    fn make_idle(&mut self, page: PageId) {
        if let Some(frame) = self.pages[page].frame {
            self.frames.release(frame, self.calls);
        }
        self.pages.remove(page);
        self.idle += 1;
    }
}
