//! The logs of a script, before the checker.

use explained::{Shape, check};
use protocol::Event;
use scripts::Setup;

/// Whether each log is explained by the rules. If one is not: which, counted from 1, and why.
pub fn explain(setup: &Setup, logs: &[Vec<Event>]) -> Result<(), String> {
    let shape = Shape { frames: setup.frames, devices: setup.devices.clone() };
    for (log, number) in logs.iter().zip(1..) {
        check(&shape, log).map_err(|unexplained| format!("log {number} is not explained: {unexplained}"))?;
    }
    Ok(())
}
