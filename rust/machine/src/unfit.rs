//! Of what no machine can be made.

use crate::{ASKINGS, Capacities};
use protocol::{Device, FEWEST_FRAMES, MOST_DEVICES, MOST_FRAMES, PROGRAMS};
use std::fmt;

/// Why no machine can be made.
#[derive(Clone, Copy, Debug, PartialEq, Eq)]
pub enum Unfit {
    /// Memory is not 64 to 65,536 frames.
    Frames,
    /// There are more than 32 devices.
    Devices,
    /// A group or a driver is not below 32.
    Numbers,
    /// The log has no room for the events of one call.
    Log,
}

impl fmt::Display for Unfit {
    fn fmt(&self, f: &mut fmt::Formatter<'_>) -> fmt::Result {
        f.write_str(match self {
            Unfit::Frames => "memory is not 64 to 65,536 frames",
            Unfit::Devices => "there are more than 32 devices",
            Unfit::Numbers => "a group or a driver is not below 32",
            Unfit::Log => "the log has no room for the events of one call",
        })
    }
}

impl std::error::Error for Unfit {}

/// The first reason that applies, if any does.
pub(crate) fn check(frames: u32, devices: &[Device], capacities: Capacities) -> Result<(), Unfit> {
    if !(FEWEST_FRAMES..=MOST_FRAMES).contains(&frames) {
        return Err(Unfit::Frames);
    }
    if devices.len() > MOST_DEVICES as usize {
        return Err(Unfit::Devices);
    }
    if devices.iter().any(|d| d.group >= PROGRAMS || d.driver >= PROGRAMS) {
        return Err(Unfit::Numbers);
    }
    if capacities.log < ASKINGS as usize + 2 {
        return Err(Unfit::Log);
    }
    Ok(())
}
