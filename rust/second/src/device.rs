//! Devices, as the keeper knows them.

use protocol::Device;
use std::collections::BTreeSet;

/// Who has a device.
#[derive(Clone, Copy, Debug, PartialEq, Eq)]
pub enum State {
    Shut,
    Open(u32),
    Closing(u32),
}

impl State {
    /// The program that has it open or closing.
    pub fn by(self) -> Option<u32> {
        match self {
            State::Shut => None,
            State::Open(who) | State::Closing(who) => Some(who),
        }
    }
}

/// A device: who has it, and for which 512 pages it has a lower table.
#[derive(Clone, Debug)]
pub struct Held {
    pub device: Device,
    pub state: State,
    pub lower: BTreeSet<u32>,
}

impl Held {
    pub fn shut(device: Device) -> Held {
        Held { device, state: State::Shut, lower: BTreeSet::new() }
    }

    /// How many frames are its tables.
    pub fn tables(&self) -> i64 {
        match self.state {
            State::Shut => 0,
            _ => 1 + self.lower.len() as i64,
        }
    }
}
