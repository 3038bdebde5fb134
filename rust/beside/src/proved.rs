//! The proved keeper.

use crate::player::Player;
use protocol::{Device, Outcome, Transcript};
use tevmalo::Machine;

/// Plays on the proved keeper and the proved simulated machine.
#[derive(Clone, Copy, Debug, Default)]
pub struct Proved;

/// More events than one call can have.
const CALL: usize = 4_096;
/// Without a `seed`, a line seldom has more events.
const LINE: usize = 8;

impl Player for Proved {
    /// With a log so large that no machine comes to its end.
    ///
    /// # Panics
    ///
    /// If no machine can be made of these frames and devices.
    fn play(&mut self, frames: u32, devices: &[Device], script: &[u8]) -> Transcript {
        let lines = script.iter().filter(|b| **b == b'\n').count();
        let mut events = 2 * CALL + LINE * lines;
        loop {
            let played = Machine::new(frames, devices, events).and_then(|mut machine| machine.play(script));
            let transcript = played.unwrap_or_else(|refusal| panic!("no machine of {frames} frames: {refusal:?}"));
            if !transcript.outcomes.contains(&Some(Outcome::Over)) || transcript.logs.iter().all(|log| log.len() + CALL < events) {
                return transcript;
            }
            events *= 4;
        }
    }
}
