//! Who plays scripts.

use protocol::{Device, Transcript};
use second::{Fault, Second};

/// Plays a script on a machine of its own.
pub trait Player {
    fn play(&mut self, frames: u32, devices: &[Device], script: &[u8]) -> Transcript;
}

/// The second keeper plays by itself, perhaps with a fault. It has no logs.
#[derive(Clone, Copy, Debug, Default)]
pub struct Beside {
    pub fault: Option<Fault>,
}

impl Player for Beside {
    fn play(&mut self, frames: u32, devices: &[Device], script: &[u8]) -> Transcript {
        let mut keeper = Second::with_fault(frames, devices, self.fault);
        let lines = script.split_inclusive(|b| *b == b'\n').map(|line| line.strip_suffix(b"\n").unwrap_or(line));
        Transcript { outcomes: lines.map(|line| keeper.answer(line)).collect(), logs: Vec::new() }
    }
}
