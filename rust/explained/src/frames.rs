use crate::Reason;
use crate::pages::PageId;

/// Which pages the frames are, as far as events have named them.
#[derive(Clone, Debug)]
pub struct Frames {
    count: u32,
    /// Up to the highest frame that was named.
    named: Vec<Named>,
}

#[derive(Clone, Copy, Debug, Default)]
struct Named {
    /// The page that it is now, if it was named for one that is still somebody's.
    page: Option<PageId>,
    /// The last call that made idle a page that this frame was.
    until: u64,
}

impl Frames {
    pub fn new(count: u32) -> Frames {
        Frames { count, named: Vec::new() }
    }

    /// Whether a page that was got by call `since` can be this frame all that time: no other page was.
    pub fn check(&self, frame: u32, since: u64) -> Result<(), Reason> {
        if frame >= self.count {
            return Err(Reason::NoSuchFrame);
        }
        if frame == 0 {
            return Err(Reason::ReachedKeepers);
        }
        match self.named.get(frame as usize) {
            Some(named) if named.page.is_some() || named.until > since => Err(Reason::FrameOfTwo),
            _ => Ok(()),
        }
    }

    /// This page is this frame.
    pub fn bind(&mut self, frame: u32, page: PageId) {
        if self.named.len() <= frame as usize {
            self.named.resize(frame as usize + 1, Named::default());
        }
        self.named[frame as usize].page = Some(page);
    }

    /// The page that it was is made idle by call `now`.
    pub fn release(&mut self, frame: u32, now: u64) {
        self.named[frame as usize] = Named { page: None, until: now };
    }
}
