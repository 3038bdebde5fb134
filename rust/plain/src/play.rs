//! Whole scripts, with a mistake or without.

use crate::fault::play_planted;
use crate::{Build, Fault, Plain, Sound};
use machine::{Board, Capacities, Machine, play};
use protocol::{Device, Line, Transcript};

pub(crate) fn play_built<B: Build>(board: &mut Board, lines: &[Option<Line>]) -> Transcript {
    let mut keeper = Plain::<B>::new(board.frames());
    play(&mut keeper, board, lines.iter().copied())
}

/// Plays a script on a machine of so many frames, with these devices and capacities, and the keeper that has this mistake, or none.
/// A line is `None` where the text is no line of a script.
///
/// # Panics
///
/// Where no machine can be made of these: see [`machine::Unfit`].
pub fn play_with(fault: Option<Fault>, frames: u32, devices: &[Device], script: &[Option<Line>], capacities: Capacities) -> Transcript {
    let mut board = Board::new(frames, devices, capacities).expect("a machine");
    match fault {
        None => play_built::<Sound>(&mut board, script),
        Some(fault) => play_planted(fault, &mut board, script),
    }
}
