use crate::tables::Tables;
use protocol::Device;

/// Who has a device.
#[derive(Clone, Copy, Debug, PartialEq, Eq)]
pub enum Hold {
    Shut,
    Open(u32),
    Closing(u32),
}

impl Hold {
    /// Whether this program has it open or closing.
    pub fn is_of(self, who: u32) -> bool {
        self.holder() == Some(who)
    }

    pub fn holder(self) -> Option<u32> {
        match self {
            Hold::Shut => None,
            Hold::Open(who) | Hold::Closing(who) => Some(who),
        }
    }
}

/// A device: what never changes, who has it, what it finds, and where its registers are shown.
#[derive(Clone, Debug)]
pub struct DeviceState {
    pub fixed: Device,
    pub hold: Hold,
    pub tables: Tables,
    pub registers: Vec<(u32, u32)>,
}

impl DeviceState {
    pub fn new(fixed: Device) -> DeviceState {
        DeviceState { fixed, hold: Hold::Shut, tables: Tables::default(), registers: Vec::new() }
    }
}

/// A set of devices, by their numbers.
#[derive(Clone, Copy, Debug, Default, PartialEq, Eq)]
pub struct DeviceSet(u32);

impl DeviceSet {
    pub fn has(self, d: u32) -> bool {
        self.0 >> d & 1 == 1
    }

    pub fn add(&mut self, d: u32) {
        self.0 |= 1 << d;
    }

    pub fn is_empty(self) -> bool {
        self.0 == 0
    }

    /// The least of these that is not among the others.
    pub fn first_without(self, others: DeviceSet) -> Option<u32> {
        let rest = self.0 & !others.0;
        (rest != 0).then(|| rest.trailing_zeros())
    }

    pub fn union(self, others: DeviceSet) -> DeviceSet {
        DeviceSet(self.0 | others.0)
    }
}

impl FromIterator<u32> for DeviceSet {
    fn from_iter<I: IntoIterator<Item = u32>>(devices: I) -> DeviceSet {
        let mut set = DeviceSet::default();
        devices.into_iter().for_each(|d| set.add(d));
        set
    }
}
