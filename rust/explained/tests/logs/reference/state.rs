//! What the rules say at one moment, with a frame for each page and table.

use std::collections::{BTreeMap, BTreeSet};

pub const WORDS: usize = 2;

#[derive(Clone, Copy, Debug, PartialEq, Eq, PartialOrd, Ord)]
pub enum Loan {
    Home,
    Lent(u32, u32, bool),
    Leaving(u32, u32, bool),
}

impl Loan {
    pub fn mapping(self) -> Option<(u32, u32, bool)> {
        match self {
            Loan::Home => None,
            Loan::Lent(d, p, w) | Loan::Leaving(d, p, w) => Some((d, p, w)),
        }
    }

    pub fn is_at(self, d: u32, p: u32) -> bool {
        self.mapping().is_some_and(|(e, q, _)| (e, q) == (d, p))
    }

    pub fn reaches(self, d: u32, p: u32, writes: bool) -> bool {
        self.mapping().is_some_and(|(e, q, w)| (e, q) == (d, p) && (w || !writes))
    }

    pub fn leaving(self) -> Loan {
        self.mapping().map_or(Loan::Home, |(d, p, w)| Loan::Leaving(d, p, w))
    }

    pub fn device(self) -> Option<u32> {
        self.mapping().map(|(d, _, _)| d)
    }
}

#[derive(Clone, Copy, Debug, PartialEq, Eq, PartialOrd, Ord)]
pub enum Use {
    House,
    TableOf(u32),
    Idle,
    Of(u32, u32, Loan),
}

impl Use {
    pub fn loan(self) -> Loan {
        if let Use::Of(_, _, loan) = self { loan } else { Loan::Home }
    }
}

#[derive(Clone, Copy, Debug, PartialEq, Eq, PartialOrd, Ord)]
pub enum Dev {
    Shut,
    Opened(u32),
    Closing(u32),
}

impl Dev {
    pub fn owner(self) -> Option<u32> {
        match self {
            Dev::Shut => None,
            Dev::Opened(c) | Dev::Closing(c) => Some(c),
        }
    }
}

#[derive(Clone, Debug, PartialEq, Eq, PartialOrd, Ord)]
pub struct State {
    pub what: Vec<Use>,
    pub word: Vec<[u64; WORDS]>,
    pub dev: Vec<Dev>,
    pub slots: BTreeSet<(u32, u32)>,
    pub regs: BTreeMap<(u32, u32), u32>,
    pub drained: BTreeSet<u32>,
    pub undrained: BTreeSet<u32>,
}

impl State {
    pub fn frame_of(&self, c: u32, v: u32) -> Option<usize> {
        self.what.iter().position(|u| matches!(u, Use::Of(w, x, _) if (*w, *x) == (c, v)))
    }

    pub fn loan(&self, c: u32, v: u32) -> Loan {
        self.frame_of(c, v).map_or(Loan::Home, |f| self.what[f].loan())
    }

    pub fn taken(&self, c: u32, v: u32) -> bool {
        self.frame_of(c, v).is_some() || self.regs.contains_key(&(c, v))
    }

    pub fn map_loans(&mut self, f: impl Fn(Loan) -> Loan) {
        for u in &mut self.what {
            if let Use::Of(_, _, loan) = u {
                *loan = f(*loan);
            }
        }
    }

    /// Words of what is no page do not count.
    pub fn set(&mut self, f: usize, u: Use) {
        self.what[f] = u;
        if !matches!(u, Use::Of(..)) {
            self.word[f] = [0; WORDS];
        }
    }

    pub fn shut(&mut self, d: u32) {
        self.regs.retain(|_, e| *e != d);
        self.slots.retain(|(e, _)| *e != d);
        self.dev[d as usize] = Dev::Shut;
        self.map_loans(|l| if l.device() == Some(d) { Loan::Home } else { l });
        for f in 0..self.what.len() {
            if self.what[f] == Use::TableOf(d) {
                self.set(f, Use::Idle);
            }
        }
    }

    pub fn shutting(&mut self, d: u32) {
        self.regs.retain(|_, e| *e != d);
        if let Some(c) = self.dev[d as usize].owner() {
            self.dev[d as usize] = Dev::Closing(c);
        }
        self.map_loans(|l| if l.device() == Some(d) { l.leaving() } else { l });
    }

    pub fn held(&self, c: u32) -> Vec<u32> {
        (0..self.dev.len() as u32).filter(|d| self.dev[*d as usize].owner() == Some(c)).collect()
    }

    /// Whether a drain of it said anything in this call.
    pub fn heard(&self, d: u32) -> bool {
        self.drained.union(&self.undrained).any(|e| *e == d)
    }
}
