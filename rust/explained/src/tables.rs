use crate::pages::PageId;
use protocol::PAGES;

/// How many pages of a device a lower table is for.
const SPAN: u32 = 512;

/// Which page is lent at, or leaving, each page of a device; and which lower tables there are.
#[derive(Clone, Debug, Default)]
pub struct Tables {
    lower: Vec<Option<Box<Lower>>>,
    count: u32,
}

type Lower = [Option<PageId>; SPAN as usize];

impl Tables {
    /// Whether there is a lower table for p.
    pub fn has(&self, p: u32) -> bool {
        self.table(p).is_some()
    }

    /// The page that is lent at p or leaving it.
    pub fn at(&self, p: u32) -> Option<PageId> {
        self.table(p)?[(p % SPAN) as usize]
    }

    /// Links a lower table for p, where there is none.
    pub fn link(&mut self, p: u32) {
        if self.lower.is_empty() {
            self.lower.resize((PAGES / SPAN) as usize, None);
        }
        self.lower[(p / SPAN) as usize] = Some(Box::new([None; SPAN as usize]));
        self.count += 1;
    }

    /// Sets what is at p, where there is a lower table.
    pub fn set(&mut self, p: u32, page: Option<PageId>) {
        if let Some(Some(table)) = self.lower.get_mut((p / SPAN) as usize) {
            table[(p % SPAN) as usize] = page;
        }
    }

    /// Drops all of it, and says how many lower tables there were.
    pub fn clear(&mut self) -> u32 {
        self.lower.clear();
        std::mem::take(&mut self.count)
    }

    fn table(&self, p: u32) -> Option<&Lower> {
        self.lower.get((p / SPAN) as usize)?.as_deref()
    }
}
