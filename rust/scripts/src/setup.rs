//! The machine that a script is played on.

use crate::random::Random;
use protocol::{Device, MOST_DEVICES};
use std::fmt;

/// How many frames there are, and which devices.
#[derive(Clone, Debug, PartialEq, Eq)]
pub struct Setup {
    pub frames: u32,
    pub devices: Vec<Device>,
}

impl Setup {
    /// With one device or more, some of them of one group, and several programs that may open those of one group.
    pub fn random(random: &mut Random, frames: u32) -> Setup {
        let most = random.pick(&[1, 2, 4, 4, 8, 8, 16, MOST_DEVICES]);
        let devices = 1 + random.below(most);
        let groups = 1 + random.below(devices);
        let crowd = random.pick(&[1, 2, 3, 5, 32]);
        let drivers: Vec<u32> = (0..crowd).map(|_| program(random)).collect();
        let device = |_| Device { group: random.below(groups), driver: random.pick(&drivers) };
        Setup { frames, devices: (0..devices).map(device).collect() }
    }

    /// The machine that `dome` has.
    pub fn dome() -> Setup {
        let device = |(group, driver)| Device { group, driver };
        Setup { frames: 64, devices: [(0, 1), (0, 1), (1, 2), (2, 31)].map(device).to_vec() }
    }
}

fn program(random: &mut Random) -> u32 {
    match random.below(6) {
        0 => 0,
        1 => 31,
        _ => random.below(32),
    }
}

impl fmt::Display for Setup {
    fn fmt(&self, f: &mut fmt::Formatter<'_>) -> fmt::Result {
        write!(f, "{} frames; group and driver of each device:", self.frames)?;
        self.devices.iter().try_for_each(|device| write!(f, " {}/{}", device.group, device.driver))
    }
}
