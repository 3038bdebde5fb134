use crate::words::Words;
use std::num::NonZeroU32;

/// A page from its `get` until it is idle, whoever has it and wherever it is shown.
#[derive(Clone, Copy, Debug, PartialEq, Eq)]
pub struct PageId(NonZeroU32);

/// Where a device finds a page, and whether it may write it.
#[derive(Clone, Copy, Debug, PartialEq, Eq)]
pub struct Mapping {
    pub d: u32,
    pub p: u32,
    pub writes: bool,
}

/// A page is home, lent to a device, or leaving it.
#[derive(Clone, Copy, Debug, PartialEq, Eq)]
pub enum Loan {
    Home,
    Lent(Mapping),
    Leaving(Mapping),
}

impl Loan {
    /// Where it is, if it is not home.
    pub fn mapping(self) -> Option<Mapping> {
        match self {
            Loan::Home => None,
            Loan::Lent(m) | Loan::Leaving(m) => Some(m),
        }
    }

    pub fn leaving(self) -> Loan {
        self.mapping().map_or(Loan::Home, Loan::Leaving)
    }
}

#[derive(Clone, Debug)]
pub struct Page {
    pub loan: Loan,
    pub words: Words,
    /// The frame that it is, once an event has named it.
    pub frame: Option<u32>,
    /// The call that got it.
    pub since: u64,
}

/// All pages that are somebody's.
#[derive(Clone, Debug, Default)]
pub struct Pages {
    all: Vec<Page>,
    unused: Vec<PageId>,
}

impl Pages {
    /// A new page: home, and noughts.
    pub fn add(&mut self, since: u64) -> PageId {
        let page = Page { loan: Loan::Home, words: Words::default(), frame: None, since };
        if let Some(id) = self.unused.pop() {
            self[id] = page;
            return id;
        }
        self.all.push(page);
        let count = u32::try_from(self.all.len()).expect("no more pages than frames");
        PageId(NonZeroU32::new(count).expect("one was just added"))
    }

    /// It is nobody's any more.
    pub fn remove(&mut self, id: PageId) {
        self[id].words = Words::default();
        self.unused.push(id);
    }
}

impl std::ops::Index<PageId> for Pages {
    type Output = Page;

    fn index(&self, id: PageId) -> &Page {
        &self.all[id.0.get() as usize - 1]
    }
}

impl std::ops::IndexMut<PageId> for Pages {
    fn index_mut(&mut self, id: PageId) -> &mut Page {
        &mut self.all[id.0.get() as usize - 1]
    }
}
