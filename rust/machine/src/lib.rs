//! A machine in memory: frames, address spaces, devices, and an IOMMU that keeps what it has read. It plays the lines of a script,
//! and after a seed the tricks of `docs/SCRIPTS.md`. All that happens stands in its log.
//!
//! [`rounds`] is the loop between programs and a keeper; [`play`] plays a whole script and gives its transcript; [`run`] is the same
//! loop on slices that are there already.

mod accesses;
mod ask;
mod asked;
mod board;
mod calls;
mod dice;
mod kept;
mod lines;
mod memory;
mod play;
mod programs;
mod refused;
mod replay;
mod rounds;
mod spaces;
mod tricks;
mod unfit;
mod walks;

pub use ask::{Ask, perform};
pub use board::{Board, Capacities, Census};
pub use play::{lines_of, play};
pub use replay::{Recorder, Replay};
pub use rounds::{BadLine, Ended, Lines, Script, rounds, run};
pub use spaces::View;
pub use unfit::Unfit;

use protocol::{Answer, Call};

/// So often a keeper may ask the machine for something while it sets up, and in each call.
pub const ASKINGS: u32 = 2048;

/// What a keeper may ask of a machine. While one of these runs, devices and the IOMMU take steps of their own.
///
/// The first four do not count as operations.
pub trait Machine {
    fn frames(&self) -> u32;
    fn devices(&self) -> u32;
    fn group(&self, d: u32) -> u32;
    fn driver(&self, d: u32) -> u32;

    /// Writes one word of a frame.
    fn put(&mut self, frame: u32, word: u32, x: u64);
    /// Reads one.
    fn get(&mut self, frame: u32, word: u32) -> u64;
    /// Place v of a program shows a frame.
    fn show(&mut self, who: u32, v: u32, frame: u32);
    /// It shows the registers of device d.
    fn show_registers(&mut self, who: u32, v: u32, d: u32);
    /// It shows nothing.
    fn hide(&mut self, who: u32, v: u32);
    /// The IOMMU lets through what its tables say, from now on.
    fn start(&mut self);
    /// The IOMMU is asked to forget device d; whether it has.
    fn drain(&mut self, d: u32) -> bool;
}

/// A keeper: it sets a machine up, and serves the calls of programs.
pub trait Keeper {
    /// Begins with a machine as at the start, whatever was before.
    fn boot(&mut self, m: &mut impl Machine);
    /// Serves a call of a program below 32.
    fn serve(&mut self, m: &mut impl Machine, who: u32, call: Call) -> Answer;
}
