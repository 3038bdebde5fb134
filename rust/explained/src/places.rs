use crate::pages::PageId;
use protocol::{PLACES, PROGRAMS};

/// What a place of a program shows.
#[derive(Clone, Copy, Debug, PartialEq, Eq)]
pub enum Shown {
    Nothing,
    Page(PageId),
    /// The registers of this device.
    Registers(u32),
}

/// What all places show. A program that has never had anything shown takes no room.
#[derive(Clone, Debug)]
pub struct Places {
    of: Vec<Vec<Shown>>,
}

impl Places {
    pub fn new() -> Places {
        Places { of: vec![Vec::new(); PROGRAMS as usize] }
    }

    pub fn at(&self, who: u32, v: u32) -> Shown {
        self.of[who as usize].get(v as usize).copied().unwrap_or(Shown::Nothing)
    }

    /// The page that the place shows.
    pub fn page(&self, who: u32, v: u32) -> Option<PageId> {
        match self.at(who, v) {
            Shown::Page(id) => Some(id),
            Shown::Nothing | Shown::Registers(_) => None,
        }
    }

    pub fn show(&mut self, who: u32, v: u32, what: Shown) {
        let space = &mut self.of[who as usize];
        if space.is_empty() {
            space.resize(PLACES as usize, Shown::Nothing);
        }
        space[v as usize] = what;
    }

    /// All pages of a program.
    pub fn pages(&self, who: u32) -> impl Iterator<Item = PageId> {
        self.of[who as usize].iter().filter_map(|shown| match shown {
            Shown::Page(id) => Some(*id),
            Shown::Nothing | Shown::Registers(_) => None,
        })
    }

    /// All places of a program show nothing from now on.
    pub fn clear(&mut self, who: u32) {
        self.of[who as usize].clear();
    }
}
