//! What there is to be done something with, as things stand.

use crate::moods::Act;
use crate::pools::Pools;
use crate::random::Random;
use protocol::{PAGES, PLACES, PROGRAMS, WORDS};
use second::{Page, Place, Second, Shown, Slot, State, Use};

/// How often something fitting is looked for.
const TRIES: usize = 6;

/// Chooses among what a keeper knows.
pub struct Picks<'a> {
    pub random: &'a mut Random,
    pub pools: &'a Pools,
    pub keeper: &'a Second,
}

impl Picks<'_> {
    pub fn program(&mut self) -> u32 {
        if self.random.percent(92) { self.random.pick(&self.pools.programs) } else { self.random.below(PROGRAMS) }
    }

    pub fn v(&mut self) -> u32 {
        if self.random.percent(92) { self.random.pick(&self.pools.places) } else { self.random.below(PLACES) }
    }

    pub fn p(&mut self) -> u32 {
        let p = self.random.pick(&self.pools.pages);
        match self.random.below(100) {
            0..4 => self.random.below(PAGES),
            4..20 => p / WORDS * WORDS + self.random.below(WORDS),
            _ => p,
        }
    }

    pub fn d(&mut self) -> u32 {
        self.random.below(self.devices())
    }

    /// Few words are looked at, so that they are looked at again.
    pub fn word(&mut self) -> u32 {
        if self.random.percent(85) { self.random.pick(&[0, 1, 511]) } else { self.random.below(512) }
    }

    pub fn x(&mut self) -> u64 {
        match self.random.below(8) {
            0 => 0,
            1 => u64::MAX,
            2 => self.random.draw(),
            _ => u64::from(self.random.below(1000)),
        }
    }

    /// The act, or mostly another if there is nothing that it could be done with: one that brings such a thing.
    pub fn fitting(&mut self, act: Act) -> Act {
        if self.random.percent(15) {
            return act;
        }
        let away = self.keeper.away_from((0, 0)).is_some();
        let kept = self.keeper.kept_from((0, 0)).is_some();
        let pages = self.keeper.shown_from((0, 0)).is_some();
        let open = (0..self.devices()).any(|d| matches!(self.keeper.state(d), State::Open(_)));
        let can_be_opened = (0..self.devices()).any(|d| self.can_be_opened(d));
        let needs_device = !matches!(act, Act::Get | Act::Free | Act::Give | Act::End | Act::Store | Act::Load | Act::Refuse);
        match act {
            Act::Open if can_be_opened => Act::Open,
            Act::Open if open && self.random.percent(50) => Act::Lend,
            Act::Open => Act::Close,
            _ if needs_device && !open => {
                if can_be_opened {
                    Act::Open
                } else {
                    Act::Close
                }
            }
            Act::Kept if away && !kept => Act::Keep,
            Act::Recall | Act::Keep | Act::Kept | Act::Read | Act::Write if !away => Act::Lend,
            Act::Free | Act::Give | Act::Store | Act::Load if !pages => Act::Get,
            other => other,
        }
    }

    /// A device that is shut, where no other program has one of its group; if it is found.
    pub fn free_device(&mut self) -> u32 {
        let from = self.d();
        let devices = self.devices();
        (0..devices).map(|k| (from + k) % devices).find(|d| self.can_be_opened(*d)).filter(|_| self.random.percent(80)).unwrap_or(from)
    }

    fn can_be_opened(&self, d: u32) -> bool {
        let device = self.keeper.devices()[d as usize];
        let of_group = |e: &u32| self.keeper.devices()[*e as usize].group == device.group;
        let free = |e: u32| self.keeper.state(e).by().is_none_or(|by| by == device.driver);
        self.keeper.state(d) == State::Shut && (0..self.devices()).filter(of_group).all(free)
    }

    fn devices(&self) -> u32 {
        self.keeper.devices().len() as u32
    }

    /// A device in such a state.
    pub fn device(&mut self, fits: impl Fn(State) -> bool) -> u32 {
        let mut d = self.d();
        for _ in 0..TRIES {
            if fits(self.keeper.state(d)) {
                break;
            }
            d = self.d();
        }
        d
    }

    /// A place, and preferably one that shows nothing.
    pub fn empty(&mut self, who: u32) -> u32 {
        let mut v = self.v();
        for _ in 0..TRIES {
            if self.keeper.shown((who, v)).is_none() {
                break;
            }
            v = if self.random.percent(80) { self.v() } else { self.random.below(PLACES) };
        }
        v
    }

    /// A place, and preferably one where there is such a page.
    pub fn page(&mut self, fits: impl Fn(&Page) -> bool) -> Place {
        let mut place = (self.program(), self.v());
        for _ in 0..TRIES {
            let from = (self.program(), self.random.below(PLACES));
            if let Some((found, Shown::Page(page))) = self.keeper.shown_from(from).or_else(|| self.keeper.shown_from((0, 0))) {
                place = found;
                if fits(page) {
                    break;
                }
            }
        }
        place
    }

    pub fn home(&mut self) -> Place {
        self.page(|page| page.at == Use::Home)
    }

    /// The place of a page that a program has at home, if it is found.
    pub fn home_of(&mut self, who: u32) -> Place {
        let from = (who, self.random.below(PLACES));
        let mut next = from;
        for _ in 0..TRIES {
            let found = self.keeper.shown_from(next).filter(|(place, _)| place.0 == who);
            match found.or_else(|| self.keeper.shown_from((who, 0))) {
                Some((place, Shown::Page(page))) if place.0 == who && page.at == Use::Home => return place,
                Some((place, _)) => next = (place.0, place.1 + 1),
                None => break,
            }
        }
        from
    }

    /// A page of a device, preferably one where somebody's page is lent or leaving; and whose.
    pub fn away(&mut self) -> Option<(Slot, Place)> {
        let from = (self.d(), self.p());
        self.keeper.away_from(from).or_else(|| self.keeper.away_from((0, 0)))
    }

    pub fn slot(&mut self) -> Slot {
        match self.away() {
            Some((slot, _)) if self.random.percent(80) => slot,
            _ => (self.d(), self.p()),
        }
    }

    /// A page of a device whose mapping was kept.
    pub fn kept(&mut self) -> Slot {
        let from = (self.d(), self.p());
        match self.keeper.kept_from(from).or_else(|| self.keeper.kept_from((0, 0))) {
            Some(slot) if self.random.percent(80) => slot,
            _ => self.slot(),
        }
    }
}
