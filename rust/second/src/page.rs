//! Pages, where they are, and their words.

use std::collections::BTreeMap;

/// A page is lent to device d at its page p, to be written or only to be read.
#[derive(Clone, Copy, Debug, PartialEq, Eq)]
pub struct Loan {
    pub d: u32,
    pub p: u32,
    pub writes: bool,
}

/// Where a page is.
#[derive(Clone, Copy, Debug, PartialEq, Eq)]
pub enum Use {
    Home,
    Lent(Loan),
    Leaving(Loan),
}

impl Use {
    pub fn loan(self) -> Option<Loan> {
        match self {
            Use::Home => None,
            Use::Lent(loan) | Use::Leaving(loan) => Some(loan),
        }
    }

    /// Whether a device may still write in it.
    pub fn is_written(self) -> bool {
        self.loan().is_some_and(|loan| loan.writes)
    }
}

/// A page of somebody's.
#[derive(Clone, Debug)]
pub struct Page {
    pub at: Use,
    pub words: Words,
}

/// What a place shows, if it shows something.
#[derive(Clone, Debug)]
pub enum Shown {
    Page(Page),
    Registers(u32),
}

/// The words of a page, as far as they are known.
#[derive(Clone, Debug)]
pub struct Words {
    known: BTreeMap<u32, u64>,
    /// All others.
    rest: Option<u64>,
}

impl Words {
    pub fn noughts() -> Words {
        Words { known: BTreeMap::new(), rest: Some(0) }
    }

    pub fn get(&self, word: u32) -> Option<u64> {
        self.known.get(&word).copied().or(self.rest)
    }

    pub fn set(&mut self, word: u32, x: u64) {
        self.known.insert(word, x);
    }

    /// Anything may stand there now.
    pub fn forget(&mut self) {
        self.known.clear();
        self.rest = None;
    }
}
