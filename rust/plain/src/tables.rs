//! The tables, in the words of the proved keeper's room.

use crate::lanes::{Block, LANES, bits, position};
use crate::layout::{FRAMES, device_word, frame_word, place_word, slot_word};
use crate::records::{Loan, Place, State, Use};
use crate::rows::{BLOCKS, Row};
use protocol::{MOST_DEVICES, WORDS};

/// Who has which frame, place, table and device.
pub(crate) struct Tables {
    words: Box<[u64]>,
}

impl Tables {
    /// Frame 0 is the keeper's and every other is idle; nothing is shown, and every device is shut.
    pub(crate) fn new(frames: u32) -> Tables {
        let mut tables = Tables { words: vec![0; frame_word(frames)].into() };
        tables.make_idle();
        tables
    }

    /// As `new` makes them, in the same words if they are for as many frames.
    pub(crate) fn set_up(&mut self, frames: u32) {
        if self.words.len() != frame_word(frames) {
            *self = Tables::new(frames);
            return;
        }
        self.words.fill(0);
        self.make_idle();
    }

    /// Every frame is idle, but the first.
    fn make_idle(&mut self) {
        let (records, _) = self.words[FRAMES..].as_chunks_mut();
        records.fill([Use::IDLE.0, 0]);
        records[0] = [Use::HOUSE.0, 0];
    }

    #[inline]
    pub(crate) fn place(&self, who: u32, v: u32) -> Place {
        Place(self.words[place_word(who, v)])
    }

    #[inline]
    pub(crate) fn set_place(&mut self, who: u32, v: u32, place: Place) {
        self.words[place_word(who, v)] = place.0;
    }

    #[inline]
    pub(crate) fn state(&self, d: u32) -> State {
        State::from(self.words[device_word(d)])
    }

    #[inline]
    fn set_state(&mut self, d: u32, state: State) {
        self.words[device_word(d)] = state.into();
    }

    /// The devices in a state that `is` holds of, a bit for each.
    #[inline]
    pub(crate) fn devices(&self, is: impl Fn(State) -> bool) -> u32 {
        let words = self.words[device_word(0)..device_word(MOST_DEVICES)].chunks_exact(2);
        words.enumerate().fold(0, |devices, (d, record)| devices | u32::from(is(State::from(record[0]))) << d)
    }

    #[inline]
    pub(crate) fn upper(&self, d: u32) -> u32 {
        self.words[device_word(d) + 1] as u32
    }

    #[inline]
    fn set_upper(&mut self, d: u32, f: u32) {
        self.words[device_word(d) + 1] = u64::from(f);
    }

    /// The frame of the lower table for page p of d, 0 if there is none.
    #[inline]
    pub(crate) fn lower(&self, d: u32, p: u32) -> u32 {
        self.words[slot_word(d, p / WORDS)].saturating_sub(1) as u32
    }

    #[inline]
    pub(crate) fn loan(&self, f: u32) -> Loan {
        Loan(self.words[frame_word(f) + 1])
    }

    /// The page at a place, in frame f, has this loan.
    #[inline]
    pub(crate) fn set_loan(&mut self, who: u32, v: u32, f: u32, loan: Loan) {
        self.words[frame_word(f) + 1] = loan.0;
        self.set_place(who, v, self.place(who, v).with(loan));
    }

    #[inline]
    fn set_record(&mut self, f: u32, used: Use, high: u64) {
        let at = frame_word(f);
        self.words[at] = used.0;
        self.words[at + 1] = high;
    }

    /// Frame f is the page at a place, and home.
    #[inline]
    pub(crate) fn settle(&mut self, who: u32, v: u32, f: u32) {
        self.set_record(f, Use::page(who, v), Loan::HOME.0);
        self.set_place(who, v, Place::page(f));
    }

    /// A place shows nothing, and the page that it showed is idle.
    #[inline]
    pub(crate) fn vacate(&mut self, who: u32, v: u32) {
        if let Some(f) = self.place(who, v).frame() {
            self.set_record(f, Use::IDLE, 0);
        }
        self.set_place(who, v, Place::NOTHING);
    }

    /// `who` opens d, with its upper table in frame f.
    pub(crate) fn open(&mut self, who: u32, d: u32, f: u32) {
        self.set_record(f, Use::table(d), 0);
        self.set_upper(d, f);
        self.set_state(d, State::Open(who));
    }

    /// The lower table for page p of d is in frame f.
    pub(crate) fn add_lower(&mut self, d: u32, p: u32, f: u32) {
        let slot = p / WORDS;
        self.set_record(f, Use::table(d), u64::from(slot) + 1);
        self.words[slot_word(d, slot)] = u64::from(f) + 1;
    }

    /// d is closing for a program: what is lent to it is leaving.
    pub(crate) fn begin_closing(&mut self, row: &Row, d: u32) {
        self.change_loans(row, d, Loan::leaving);
        self.set_state(d, State::Closing(row.who));
    }

    /// d, which a program has, is shut: what it has comes home, and its tables are idle.
    pub(crate) fn shut(&mut self, row: &Row, d: u32) {
        self.change_loans(row, d, |_| Loan::HOME);
        self.drop_tables(d);
        self.set_state(d, State::Shut);
    }

    /// d has no table, and those that it had are idle.
    fn drop_tables(&mut self, d: u32) {
        for first in (0..WORDS).step_by(LANES) {
            self.drop_lowers(slot_word(d, first));
        }
        self.set_record(self.upper(d), Use::IDLE, 0);
        self.set_upper(d, 0);
    }

    /// There is no lower table at a block of slots, and those that there were are idle.
    #[inline]
    fn drop_lowers(&mut self, first: usize) {
        if bits(&self.words.as_chunks().0[first / LANES]) == 0 {
            return;
        }
        for at in first..first + LANES {
            if let Some(table) = self.words[at].checked_sub(1) {
                self.set_record(table as u32, Use::IDLE, 0);
                self.words[at] = 0;
            }
        }
    }

    /// The places of a program.
    #[inline]
    pub(crate) fn places(&self, who: u32) -> &[Block; BLOCKS] {
        &self.words.as_chunks().0.as_chunks().0[who as usize]
    }

    /// An idle frame, looked for from `from` on and then from 0.
    #[inline]
    pub(crate) fn idle(&self, from: u32) -> Option<u32> {
        let (records, _) = self.words[FRAMES..].as_chunks();
        let (before, behind) = records.split_at((from as usize).min(records.len()));
        let idle = |[low, _]: [u64; 2]| Use(low).is_idle();
        let f = match position::<_, HALF>(behind, idle) {
            Some(k) => before.len() + k,
            None => position::<_, HALF>(before, idle)?,
        };
        Some(f as u32)
    }

    /// A frame that is no page: it is idle, or a table.
    pub(crate) fn no_page(&self) -> Option<u32> {
        let (records, _) = self.words[frame_word(1)..].as_chunks();
        position::<_, HALF>(records, |[low, _]: [u64; 2]| !Use(low).is_page()).map(|k| k as u32 + 1)
    }
}

/// Frames that have as many words as are looked at at once.
const HALF: usize = LANES / 2;
