//! The table of pages.

use crate::device::{Held, State};
use crate::page::{Page, Shown, Use};
use crate::world::World;
use protocol::Device;
use std::collections::BTreeMap;

/// A place of a program.
pub type Place = (u32, u32);
/// A page of a device.
pub type Slot = (u32, u32);

/// Who has which page and which device, and what places show.
#[derive(Clone, Debug)]
pub struct Table {
    frames: u32,
    pages: i64,
    held: Vec<Held>,
    places: BTreeMap<Place, Shown>,
    /// At which place the page is that is lent, or leaving, at a page of a device.
    slots: BTreeMap<Slot, Place>,
}

impl Table {
    pub fn new(frames: u32, devices: &[Device]) -> Table {
        let held = devices.iter().map(|device| Held::shut(*device)).collect();
        Table { frames, pages: 0, held, places: BTreeMap::new(), slots: BTreeMap::new() }
    }

    /// How many frames are neither the keeper's, nor pages, nor tables.
    pub fn idle(&self) -> i64 {
        i64::from(self.frames) - 1 - self.pages - self.held.iter().map(Held::tables).sum::<i64>()
    }

    pub fn devices(&self) -> u32 {
        self.held.len() as u32
    }

    pub fn held(&self, d: u32) -> &Held {
        &self.held[d as usize]
    }

    pub fn held_mut(&mut self, d: u32) -> &mut Held {
        &mut self.held[d as usize]
    }

    pub fn shown(&self, place: Place) -> Option<&Shown> {
        self.places.get(&place)
    }

    pub fn places(&self) -> &BTreeMap<Place, Shown> {
        &self.places
    }

    pub fn slots(&self) -> &BTreeMap<Slot, Place> {
        &self.slots
    }

    pub fn page(&self, place: Place) -> Option<&Page> {
        match self.places.get(&place)? {
            Shown::Page(page) => Some(page),
            Shown::Registers(_) => None,
        }
    }

    pub fn page_mut(&mut self, place: Place) -> Option<&mut Page> {
        match self.places.get_mut(&place)? {
            Shown::Page(page) => Some(page),
            Shown::Registers(_) => None,
        }
    }

    /// The page that is lent to a device, or leaving it, at one of its pages.
    pub fn away(&self, slot: Slot) -> Option<&Page> {
        self.page(*self.slots.get(&slot)?)
    }

    pub fn away_mut(&mut self, slot: Slot) -> Option<&mut Page> {
        let place = *self.slots.get(&slot)?;
        self.page_mut(place)
    }

    pub fn show(&mut self, place: Place, shown: Shown) {
        if matches!(shown, Shown::Page(_)) {
            self.pages += 1;
        }
        self.places.insert(place, shown);
    }

    pub fn hide(&mut self, place: Place) -> Option<Shown> {
        let shown = self.places.remove(&place)?;
        if matches!(shown, Shown::Page(_)) {
            self.pages -= 1;
        }
        Some(shown)
    }

    /// The page at a place is lent, is leaving, or is home.
    pub fn put(&mut self, place: Place, at: Use) {
        let Some(page) = self.page_mut(place) else { return };
        let was = std::mem::replace(&mut page.at, at).loan();
        if let Some(loan) = was
            && self.slots.get(&(loan.d, loan.p)) == Some(&place)
        {
            self.slots.remove(&(loan.d, loan.p));
        }
        if let Some(loan) = at.loan() {
            self.slots.insert((loan.d, loan.p), place);
        }
    }

    /// The places of the pages that are lent to a device or leaving it.
    pub fn away_from(&self, d: u32) -> Vec<Place> {
        self.slots.range((d, 0)..(d + 1, 0)).map(|(_, place)| *place).collect()
    }

    /// The places of a program that show something.
    pub fn places_of(&self, who: u32) -> Vec<Place> {
        self.places.range((who, 0)..(who + 1, 0)).map(|(place, _)| *place).collect()
    }

    /// The places of a program that show the registers of a device.
    pub fn registers_of(&self, who: u32, d: u32) -> Vec<Place> {
        let shows = |shown: &Shown| matches!(shown, Shown::Registers(e) if *e == d);
        self.places.range((who, 0)..(who + 1, 0)).filter(|(_, shown)| shows(shown)).map(|(place, _)| *place).collect()
    }

    /// The devices that a program has open or closing.
    pub fn devices_of(&self, who: u32, world: World) -> Vec<u32> {
        (0..self.devices()).filter(|d| !world.has_shut(*d) && self.held(*d).state.by() == Some(who)).collect()
    }

    /// The device is shut, and its tables are idle.
    pub fn shut(&mut self, d: u32) {
        let held = self.held_mut(d);
        held.state = State::Shut;
        held.lower.clear();
    }
}
