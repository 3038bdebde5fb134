//! The machine: memory, address spaces, what the IOMMU keeps, and all that happened.

use crate::dice::Dice;
use crate::kept::{Kept, LowerTable, PageEntry, UpperTable};
use crate::memory::Memory;
use crate::refused::NoRoom;
use crate::spaces::Spaces;
use crate::unfit::check;
use crate::{ASKINGS, Unfit, View};
use protocol::{Device, Event};

/// How many upper tables, lower tables and pages the IOMMU can keep, accesses it can have under way, and events the log can hold.
#[derive(Clone, Copy, Debug, PartialEq, Eq)]
pub struct Capacities {
    pub uppers: usize,
    pub lowers: usize,
    pub pages: usize,
    pub accesses: usize,
    pub log: usize,
}

impl Capacities {
    /// As many of each thing that the IOMMU keeps, and so many events.
    pub const fn of(kept: usize, log: usize) -> Capacities {
        Capacities { uppers: kept, lowers: kept, pages: kept, accesses: kept, log }
    }
}

/// How many there are of what [`Capacities`] has room for.
#[derive(Clone, Copy, Debug, PartialEq, Eq)]
pub struct Census {
    pub uppers: usize,
    pub lowers: usize,
    pub pages: usize,
    pub accesses: usize,
    pub events: usize,
}

/// A machine. One event is owed for each operation that may still be asked of it, and one for the answer while a call is served.
pub struct Board {
    pub(crate) memory: Memory,
    pub(crate) spaces: Spaces,
    pub(crate) devices: Box<[Device]>,
    pub(crate) live: bool,
    pub(crate) uppers: Kept<UpperTable>,
    pub(crate) lowers: Kept<LowerTable>,
    pub(crate) pages: Kept<PageEntry>,
    pub(crate) accesses: Kept<PageEntry>,
    /// How often it may still be asked in this call.
    pub(crate) left: u32,
    /// How often it was asked before this call.
    pub(crate) asked: u64,
    log: Vec<Event>,
    most: usize,
    /// Without a seed nothing happens by itself.
    pub(crate) dice: Option<Dice>,
    pub(crate) refusals: u64,
}

impl Board {
    /// A machine as at the start.
    pub fn new(frames: u32, devices: &[Device], capacities: Capacities) -> Result<Board, Unfit> {
        check(frames, devices, capacities)?;
        Ok(Board {
            memory: Memory::new(frames),
            spaces: Spaces::new(),
            devices: devices.into(),
            live: false,
            uppers: Kept::new(capacities.uppers),
            lowers: Kept::new(capacities.lowers),
            pages: Kept::new(capacities.pages),
            accesses: Kept::new(capacities.accesses),
            left: ASKINGS,
            asked: 0,
            log: Vec::with_capacity(capacities.log),
            most: capacities.log,
            dice: None,
            refusals: 0,
        })
    }

    /// As at the start again, in the same arrays.
    pub fn reset(&mut self) {
        self.memory.scribble();
        self.spaces.hide_all();
        self.live = false;
        self.uppers.clear();
        self.lowers.clear();
        self.pages.clear();
        self.accesses.clear();
        self.left = ASKINGS;
        self.asked = 0;
        self.log.clear();
        self.dice = None;
        self.refusals = 0;
    }

    /// All that happened, the earliest first.
    pub fn log(&self) -> &[Event] {
        &self.log
    }

    /// How many operations were asked of it since the start.
    pub fn asks(&self) -> u64 {
        self.asked + u64::from(ASKINGS - self.left)
    }

    pub fn census(&self) -> Census {
        Census {
            uppers: self.uppers.len(),
            lowers: self.lowers.len(),
            pages: self.pages.len(),
            accesses: self.accesses.len(),
            events: self.log.len(),
        }
    }

    /// What a place of a program shows.
    pub fn view(&self, who: u32, v: u32) -> View {
        self.spaces.view(who, v)
    }

    /// A word of a frame, 0 if there is no such frame. This is not an operation.
    pub fn word(&self, frame: u32, word: u32) -> u64 {
        self.memory.word(u64::from(frame), word)
    }

    /// How many more events there is room for.
    pub(crate) fn room(&self) -> usize {
        self.most - self.log.len()
    }

    /// Notes what room was kept for.
    #[inline]
    pub(crate) fn note(&mut self, e: Event) {
        self.log.push(e);
    }

    /// Notes what is neither asked nor answered, where there is room beyond what is owed.
    pub(crate) fn note_aside(&mut self, e: Event) -> Result<(), NoRoom> {
        if self.room() <= self.left as usize + 1 {
            return Err(NoRoom);
        }
        self.log.push(e);
        Ok(())
    }
}
