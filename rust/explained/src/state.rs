use crate::Shape;
use crate::devices::{DeviceSet, DeviceState};
use crate::frames::Frames;
use crate::pages::{PageId, Pages};
use crate::places::Places;
use protocol::MOST_DEVICES;

/// What the rules say at one moment.
#[derive(Clone, Debug)]
pub struct State {
    pub places: Places,
    pub pages: Pages,
    pub devices: Vec<DeviceState>,
    pub frames: Frames,
    /// How many frames are idle.
    pub idle: u32,
    /// How many calls were asked.
    pub calls: u64,
}

impl State {
    /// At the start frame 0 is the keeper's, every other frame idle, every device shut.
    pub fn new(shape: &Shape) -> State {
        assert!(shape.devices.len() <= MOST_DEVICES as usize, "a machine has {MOST_DEVICES} devices at most");
        State {
            places: Places::new(),
            pages: Pages::default(),
            devices: shape.devices.iter().copied().map(DeviceState::new).collect(),
            frames: Frames::new(shape.frames),
            idle: shape.frames.saturating_sub(1),
            calls: 0,
        }
    }

    pub fn device(&self, d: u32) -> Option<&DeviceState> {
        self.devices.get(d as usize)
    }

    /// The devices that a program has open or closing.
    pub fn held_by(&self, who: u32) -> DeviceSet {
        (0..).zip(&self.devices).filter(|(_, device)| device.hold.is_of(who)).map(|(d, _)| d).collect()
    }

    /// The page that is lent to d at p, or leaving it.
    pub fn found(&self, d: u32, p: u32) -> Option<PageId> {
        self.device(d)?.tables.at(p)
    }
}
