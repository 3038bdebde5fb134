//! What the IOMMU and devices do by themselves, chosen by the seed.

use crate::Board;
use crate::dice::Dice;
use crate::kept::{LowerTable, PageEntry, UpperTable};
use protocol::{PAGES, WORDS};

impl Board {
    /// An opportunity: with a seed up to three tricks, without one none.
    #[inline]
    pub(crate) fn play(&mut self) {
        if let Some(dice) = self.dice {
            self.dice = Some(self.play_tricks(dice));
        }
    }

    #[inline(never)]
    fn play_tricks(&mut self, mut dice: Dice) -> Dice {
        for _ in 0..dice.below(4) {
            self.trick(&mut dice);
        }
        dice
    }

    /// One trick, or none where what it needs is not there. Where the log or a list is full, nothing comes of it.
    fn trick(&mut self, dice: &mut Dice) {
        match dice.below(11) {
            0 => drop(self.learn_upper(dice)),
            1 => drop(self.learn_lower(dice)),
            2 => drop(self.learn_page(dice)),
            3 => self.uppers.lose_one(dice),
            4 => self.lowers.lose_one(dice),
            5 => self.pages.lose_one(dice),
            6 => self.let_through(dice),
            7 => self.accesses.lose_one(dice),
            8 => self.read_late(dice),
            9 => self.write_late(dice),
            _ => self.miss(dice),
        }
    }

    /// An upper table from frame 0.
    fn learn_upper(&mut self, dice: &mut Dice) -> Option<()> {
        let n = self.devices.len() as u32;
        if n == 0 || !self.live {
            return None;
        }
        let device = dice.below(n);
        let table = self.table_in(self.memory.word(0, device))?;
        self.uppers.learn(UpperTable { device, table }).ok()
    }

    /// From an upper table that is kept to a lower one.
    fn learn_lower(&mut self, dice: &mut Dice) -> Option<()> {
        let upper = self.uppers.pick(dice)?;
        let slot = self.memory.first_set(upper.table, dice.below(WORDS))?;
        let table = self.table_in(self.memory.word(upper.table, slot))?;
        self.lowers.learn(LowerTable { device: upper.device, slot, table }).ok()
    }

    /// From a lower table that is kept to a page.
    fn learn_page(&mut self, dice: &mut Dice) -> Option<()> {
        let lower = self.lowers.pick(dice)?;
        let k = self.memory.first_set(lower.table, dice.below(WORDS))?;
        let entry = self.memory.word(lower.table, k);
        if entry > 2 * u64::from(self.memory.frames()) {
            return None;
        }
        self.pages.learn(PageEntry { device: lower.device, page: WORDS * lower.slot + k, entry }).ok()
    }

    /// The table that a word names, if it names one that is in memory.
    fn table_in(&self, word: u64) -> Option<u64> {
        word.checked_sub(1).filter(|table| *table < u64::from(self.memory.frames()))
    }

    /// An access by a page that is kept.
    fn let_through(&mut self, dice: &mut Dice) {
        if let Some(page) = self.pages.pick(dice) {
            let _ = self.accesses.learn(page);
        }
    }

    /// An access under way reads.
    fn read_late(&mut self, dice: &mut Dice) {
        if let Some(by) = self.accesses.pick(dice) {
            let _ = self.take_at(by, dice.below(WORDS));
        }
    }

    /// It writes, if its entry lets it.
    fn write_late(&mut self, dice: &mut Dice) {
        if let Some(by) = self.accesses.pick(dice) {
            let word = dice.below(WORDS);
            let _ = self.put_at(by, word, dice.word());
        }
    }

    /// A device finds nothing at a page.
    fn miss(&mut self, dice: &mut Dice) {
        let n = self.devices.len() as u32;
        if n > 0 {
            let (d, p) = (dice.below(n), dice.below(PAGES));
            let _ = self.miss_at(d, p, dice.below(2) == 1);
        }
    }
}
