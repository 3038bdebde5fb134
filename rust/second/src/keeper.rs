//! The second keeper.

use crate::device::State;
use crate::expect::Expect;
use crate::fault::Fault;
use crate::page::{Page, Shown, Use};
use crate::table::{Place, Slot, Table};
use crate::view::View;
use crate::world::World;
use protocol::{Device, Line, Outcome};
use std::collections::BTreeSet;

/// More ways in which things may stand are not followed.
const MOST_WORLDS: usize = 4096;

/// The second keeper, with its machine, somewhere in a script.
#[derive(Clone, Debug)]
pub struct Second {
    pub(crate) table: Table,
    /// How things may stand: one world as long as all is known.
    pub(crate) worlds: Vec<World>,
    /// What a script made the IOMMU keep; of no use with a `seed`.
    pub(crate) kept: BTreeSet<Slot>,
    pub(crate) seeded: bool,
    pub(crate) fault: Option<Fault>,
    /// The words of the page that became idle last.
    pub(crate) left: Option<Page>,
    /// Too much is unknown, up to the next `new`.
    pub(crate) lost: bool,
    frames: u32,
    devices: Vec<Device>,
    lines: u64,
}

impl Second {
    /// At the start of a script, on a machine of that many frames and these devices.
    pub fn new(frames: u32, devices: &[Device]) -> Second {
        Second::with_fault(frames, devices, None)
    }

    /// With a fault that is planted.
    pub fn with_fault(frames: u32, devices: &[Device], fault: Option<Fault>) -> Second {
        Second {
            table: Table::new(frames, devices),
            worlds: vec![World::START],
            kept: BTreeSet::new(),
            seeded: false,
            fault,
            left: None,
            lost: false,
            frames,
            devices: devices.to_vec(),
            lines: 0,
        }
    }

    /// What may be said of this line, if it is the next.
    pub fn expect(&self, text: &[u8]) -> Expect {
        match Line::parse(text) {
            None => Expect::Exactly(Outcome::BadLine(self.lines + 1)),
            Some(line) => self.may(line),
        }
    }

    /// This line is the next, and that was said of it. If the rules do not allow that, it is told what they do.
    pub fn follow(&mut self, text: &[u8], came: Option<Outcome>) -> Result<(), Expect> {
        let Some(line) = Line::parse(text) else {
            self.lines += 1;
            let must = Outcome::BadLine(self.lines);
            return if came == Some(must) { Ok(()) } else { Err(Expect::Exactly(must)) };
        };
        let expect = self.may(line);
        if !expect.admits(came) {
            return Err(expect);
        }
        self.lines += 1;
        if line == Line::New {
            self.begin_anew();
        } else if !self.lost {
            if self.worlds.len() > 1 {
                self.learn(line, came);
            }
            self.apply(line, came);
        }
        Ok(())
    }

    /// Goes on by itself, and says something that may be said.
    pub fn answer(&mut self, text: &[u8]) -> Option<Outcome> {
        let came = self.expect(text).likely();
        // What it says itself is allowed.
        let _ = self.follow(text, came);
        came
    }

    fn may(&self, line: Line) -> Expect {
        if self.lost && line.prints() {
            return Expect::Anything;
        }
        let mut worlds = self.worlds.iter().map(|world| self.view(*world).of(line));
        let first = worlds.next().unwrap_or(Expect::Anything);
        worlds.fold(first, Expect::or)
    }

    /// Only those worlds remain that allow what was said.
    fn learn(&mut self, line: Line, came: Option<Outcome>) {
        let mut worlds = std::mem::take(&mut self.worlds);
        worlds.retain(|world| self.view(*world).of(line).admits(came));
        self.set_worlds(worlds);
    }

    /// A device that is shut in every world is shut.
    pub(crate) fn set_worlds(&mut self, mut worlds: Vec<World>) {
        worlds.sort_unstable();
        worlds.dedup();
        self.lost = worlds.len() > MOST_WORLDS;
        let shut = worlds.iter().fold(u32::MAX, |all, world| all & world.shut);
        for world in &mut worlds {
            world.shut &= !shut;
        }
        self.worlds = worlds;
        for d in (0..self.table.devices()).filter(|d| shut >> d & 1 == 1) {
            self.table_shut(d);
        }
    }

    /// The device is shut, and whatever was leaving it is home. Its words are those that are known already.
    fn table_shut(&mut self, d: u32) {
        for place in self.table.away_from(d) {
            self.table.put(place, Use::Home);
        }
        self.table.shut(d);
    }

    fn begin_anew(&mut self) {
        let lines = self.lines;
        *self = Second { lines, ..Second::with_fault(self.frames, &self.devices, self.fault) };
    }

    pub(crate) fn view(&self, world: World) -> View<'_> {
        View { table: &self.table, world, kept: &self.kept, seeded: self.seeded, fault: self.fault }
    }
}

/// What it knows. A device that may be shut, or closing, counts as closing.
impl Second {
    pub fn state(&self, d: u32) -> State {
        self.table.held(d).state
    }

    pub fn devices(&self) -> &[Device] {
        &self.devices
    }

    /// How many frames are idle.
    pub fn idle(&self) -> i64 {
        self.table.idle()
    }

    pub fn is_seeded(&self) -> bool {
        self.seeded
    }

    /// How many ways there are in which things may stand.
    pub fn worlds(&self) -> usize {
        self.worlds.len()
    }

    /// Whether too much is unknown.
    pub fn is_lost(&self) -> bool {
        self.lost
    }

    pub fn shown(&self, place: Place) -> Option<&Shown> {
        self.table.shown(place)
    }

    /// The first place from there on that shows something.
    pub fn shown_from(&self, place: Place) -> Option<(Place, &Shown)> {
        self.table.places().range(place..).next().map(|(place, shown)| (*place, shown))
    }

    /// The first page of a device from there on where a page is lent or leaving, and that page's place.
    pub fn away_from(&self, slot: Slot) -> Option<(Slot, Place)> {
        self.table.slots().range(slot..).next().map(|(slot, place)| (*slot, *place))
    }

    /// The place of the page that is lent there, or leaving.
    pub fn away(&self, slot: Slot) -> Option<Place> {
        self.table.slots().get(&slot).copied()
    }

    pub fn page(&self, place: Place) -> Option<&Page> {
        self.table.page(place)
    }

    /// The devices that a program has open or closing.
    pub fn devices_of(&self, who: u32) -> usize {
        (0..self.table.devices()).filter(|d| self.state(*d).by() == Some(who)).count()
    }

    /// What a script made the IOMMU keep, and is not forgotten: the first from there on.
    pub fn kept_from(&self, slot: Slot) -> Option<Slot> {
        self.kept.range(slot..).next().copied()
    }
}
