//! What the keeper asks of the machine.

use crate::{Board, Machine, View};
use protocol::Event;

impl Machine for Board {
    #[inline]
    fn frames(&self) -> u32 {
        self.memory.frames()
    }

    #[inline]
    fn devices(&self) -> u32 {
        self.devices.len() as u32
    }

    #[inline]
    fn group(&self, d: u32) -> u32 {
        self.devices.get(d as usize).map_or(0, |device| device.group)
    }

    #[inline]
    fn driver(&self, d: u32) -> u32 {
        self.devices.get(d as usize).map_or(0, |device| device.driver)
    }

    #[inline]
    fn put(&mut self, frame: u32, word: u32, x: u64) {
        self.memory.write(frame, word, x);
        self.count();
    }

    #[inline]
    fn get(&mut self, frame: u32, word: u32) -> u64 {
        let x = self.memory.word(u64::from(frame), word);
        self.count();
        x
    }

    #[inline]
    fn show(&mut self, who: u32, v: u32, frame: u32) {
        self.place(who, v, View::Page(frame));
    }

    #[inline]
    fn show_registers(&mut self, who: u32, v: u32, d: u32) {
        self.place(who, v, View::Regs(d));
    }

    #[inline]
    fn hide(&mut self, who: u32, v: u32) {
        self.place(who, v, View::Hidden);
    }

    fn start(&mut self) {
        self.live = true;
        self.count();
    }

    fn drain(&mut self, d: u32) -> bool {
        self.play();
        let said = !self.refuses();
        if said {
            self.forget(d);
        }
        self.note(Event::Drained { d, said });
        self.count();
        said
    }
}

impl Board {
    /// One operation less may be asked in this call; devices and the IOMMU take their steps.
    #[inline]
    fn count(&mut self) {
        self.left -= 1;
        self.play();
    }

    #[inline]
    fn place(&mut self, who: u32, v: u32, view: View) {
        self.spaces.set(who, v, view);
        self.count();
    }

    /// A drain says no as often as the script told it to, and with a seed one time in four by itself.
    fn refuses(&mut self) -> bool {
        if self.refusals > 0 {
            self.refusals -= 1;
            return true;
        }
        self.dice.as_mut().is_some_and(|dice| dice.below(4) == 0)
    }

    fn forget(&mut self, d: u32) {
        self.uppers.forget(d);
        self.lowers.forget(d);
        self.pages.forget(d);
        self.accesses.forget(d);
    }
}
