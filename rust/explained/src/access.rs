//! What devices may do, at any time: reach what is lent to them or leaving, and miss what is not lent.

use crate::Reason;
use crate::pages::{Loan, Mapping, PageId};
use crate::state::State;
use crate::underway::Underway;
use protocol::{PAGES, WORDS};

/// An access under the number of device d, at its page p.
#[derive(Clone, Copy, Debug)]
pub struct Access {
    pub d: u32,
    pub p: u32,
    pub frame: u32,
    pub word: u32,
    pub x: u64,
    pub writes: bool,
}

impl State {
    /// A word of a page that is lent there or leaving is read or written.
    pub fn access(&mut self, call: Option<&mut Underway>, a: Access) -> Result<(), Reason> {
        self.check_page(a.d, a.p)?;
        if a.word >= WORDS {
            return Err(Reason::NoSuchWord);
        }
        let (page, mapping, lender) = self.reached(call, a)?;
        if a.writes && !mapping.writes {
            return Err(Reason::WroteReadOnly);
        }
        match self.pages[page].frame {
            Some(first) if first != a.frame => return Err(Reason::AnotherFrame { first }),
            Some(_) => {}
            None => self.frames.check(a.frame, self.pages[page].since)?,
        }
        if !a.writes {
            self.pages[page].words.check(a.word, a.x)?;
        }
        // It is explained: from here on things change.
        if let Some(call) = lender {
            self.act(call.who, call.call, call.yes);
            call.acted = true;
        }
        if self.pages[page].frame.is_none() {
            self.pages[page].frame = Some(a.frame);
            self.frames.bind(a.frame, page);
        }
        if a.writes {
            self.pages[page].words.set(a.word, a.x);
        }
        Ok(())
    }

    /// The page that is found there, and as what; with the call if it has just lent it.
    fn reached<'a>(&self, call: Option<&'a mut Underway>, a: Access) -> Result<(PageId, Mapping, Option<&'a mut Underway>), Reason> {
        if let Some(page) = self.found(a.d, a.p)
            && let Some(mapping) = self.pages[page].loan.mapping()
        {
            return Ok((page, mapping, None));
        }
        if let Some(call) = call
            && let Some((v, mapping)) = call.lends()
            && (mapping.d, mapping.p) == (a.d, a.p)
            && let Some(page) = self.places.page(call.who, v)
        {
            return Ok((page, mapping, Some(call)));
        }
        Err(if a.writes { Reason::WroteNotLent } else { Reason::ReadNotLent })
    }

    /// A device finds nothing: no page is lent there, or it was to write and the page was lent only to be read.
    pub fn missed(&self, call: Option<&Underway>, d: u32, p: u32, writes: bool) -> Result<(), Reason> {
        self.check_page(d, p)?;
        let Some(page) = self.found(d, p) else { return Ok(()) };
        match self.pages[page].loan {
            Loan::Lent(m) if m.writes || !writes => {
                let leaving = call.is_some_and(|call| call.brings_home(d, p));
                if leaving { Ok(()) } else { Err(Reason::MissedLent) }
            }
            _ => Ok(()),
        }
    }

    fn check_page(&self, d: u32, p: u32) -> Result<(), Reason> {
        if self.device(d).is_none() {
            return Err(Reason::NoSuchDevice);
        }
        if p < PAGES { Ok(()) } else { Err(Reason::NoSuchPage) }
    }
}
