//! Rows of numbers that cross to the library and back, as `include/tevmalo.h` has them.

use protocol::{Answer, Call, Event, Outcome};

/// An event.
#[repr(C)]
#[derive(Clone, Copy, Debug, Default, PartialEq, Eq)]
pub struct Row {
    pub kind: u32,
    pub who: u32,
    pub call: u32,
    pub a: u32,
    pub b: u32,
    pub c: u32,
    pub flag: u32,
    pub reason: u32,
    pub x: u64,
}

impl Row {
    fn call(&self) -> Call {
        let Row { a, b, c, .. } = *self;
        match self.call {
            0 => Call::Get { v: a },
            1 => Call::Free { v: a },
            2 => Call::Give { v: a, to: b, at: c },
            3 => Call::Open { d: a },
            4 => Call::Close { d: a },
            5 => Call::Regs { d: a, v: b },
            6 => Call::Lend { v: a, d: b, p: c, writes: self.flag == 1 },
            7 => Call::Recall { v: a },
            _ => Call::End { who: a },
        }
    }
}

impl From<Row> for Event {
    fn from(row: Row) -> Event {
        let Row { who, a, b, c, x, .. } = row;
        let told = |answer| Event::Told { who, call: row.call(), answer };
        match row.kind {
            0 => Event::Asked { who, call: row.call() },
            1 => told(Answer::Done),
            2 => told(Answer::Later),
            3 => told(Answer::No(row.reason)),
            4 => Event::Loaded { who, v: a, word: b, x },
            5 => Event::Stored { who, v: a, word: b, x },
            6 => Event::Faulted { who, v: a },
            7 => Event::Poked { who, v: a, d: b },
            8 => Event::Took { d: who, p: a, frame: b, word: c, x },
            9 => Event::Put { d: who, p: a, frame: b, word: c, x },
            10 => Event::Missed { d: who, p: a, writes: row.flag == 1 },
            _ => Event::Drained { d: who, said: row.flag == 1 },
        }
    }
}

/// What is said of a line.
#[repr(C)]
#[derive(Clone, Copy, Debug, Default, PartialEq, Eq)]
pub struct Said {
    pub kind: u32,
    pub reason: u32,
    pub x: u64,
}

impl Said {
    /// The outcome, if anything is printed for the line. A bad line's number counts from `before` lines that were read earlier.
    pub fn outcome(&self, before: u64) -> Option<Outcome> {
        Some(match self.kind {
            1 => Outcome::Done,
            2 => Outcome::Later,
            3 => Outcome::No(self.reason),
            4 => Outcome::Loaded(self.x),
            5 => Outcome::Stored,
            6 => Outcome::Fault,
            7 => Outcome::Poked,
            8 => Outcome::Took(self.x),
            9 => Outcome::Put,
            10 => Outcome::Miss,
            11 => Outcome::Kept,
            12 => Outcome::Nothing,
            13 => Outcome::Over,
            14 => Outcome::BadLine(before + self.x),
            _ => return None,
        })
    }
}

/// An upper table that the IOMMU keeps.
#[repr(C)]
#[derive(Clone, Copy, Debug, Default, PartialEq, Eq)]
pub struct UpperTable {
    pub device: u32,
    pub table: u64,
}

/// A lower table that it keeps.
#[repr(C)]
#[derive(Clone, Copy, Debug, Default, PartialEq, Eq)]
pub struct LowerTable {
    pub device: u32,
    pub slot: u32,
    pub table: u64,
}

/// A page's entry that it keeps, or by which an access is under way.
#[repr(C)]
#[derive(Clone, Copy, Debug, Default, PartialEq, Eq)]
pub struct PageEntry {
    pub device: u32,
    pub page: u32,
    pub entry: u64,
}

/// What came of a script.
#[repr(C)]
#[derive(Clone, Copy, Debug, Default, PartialEq, Eq)]
pub struct Played {
    pub lines: u64,
    pub events: u64,
    pub again: u32,
}
