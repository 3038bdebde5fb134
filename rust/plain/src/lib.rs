//! A keeper in plain Rust, written for speed: its tables are the words of the proved one's room, and it asks the machine for the
//! same operations in the same order.
//!
//! [`Plain`] is it, built with a [`Fault`] or without. [`play_with`] plays a script with either:
//!
//! ```
//! use machine::{Capacities, lines_of};
//! use plain::{Fault, play_with};
//! use protocol::{Device, Outcome};
//!
//! let devices = [Device { group: 0, driver: 1 }];
//! let script = lines_of(b"1 get 5\n1 open 0\n1 lend 5 0 700 w\nno 1\n1 recall 5\n");
//! let last = |fault| play_with(fault, 64, &devices, &script, Capacities::of(64, 50_000)).outcomes.pop();
//! assert_eq!(last(None), Some(Some(Outcome::Later)));
//! assert_eq!(last(Some(Fault::HomeAfterNo)), Some(Some(Outcome::Done)));
//! ```
//!
//! [`machine::run`] plays lines that are there already, with nothing allocated:
//!
//! ```
//! use machine::{Board, Capacities, Ended, Recorder, run};
//! use plain::Plain;
//! use protocol::{Call, Device, Line, Outcome};
//!
//! let mut board = Board::new(64, &[Device { group: 0, driver: 1 }], Capacities::of(64, 50_000)).unwrap();
//! let lines = [Line::Call { who: 1, call: Call::Get { v: 5 } }, Line::Load { who: 1, v: 5, word: 0 }];
//! let mut outcomes = [Outcome::Over; 2];
//! let mut recorder = Recorder::new(<Plain>::new(64));
//! assert_eq!(run(&mut recorder, &mut board, &lines, &mut outcomes), (2, Ended::Script));
//! assert_eq!(outcomes, [Outcome::Done, Outcome::Loaded(0)]);
//!
//! // The same without the keeper: what it asked is asked again.
//! let mut replay = recorder.replay();
//! board.reset();
//! run(&mut replay, &mut board, &lines, &mut outcomes);
//! assert_eq!(board.asks(), 512 + 1 + 512 + 1);
//! ```

mod build;
mod closing;
mod devices;
mod fault;
mod lanes;
mod layout;
mod lend;
#[cfg(test)]
mod packed;
mod pages;
mod plain;
mod play;
mod reason;
mod recall;
mod records;
mod rows;
mod tables;

pub use build::{Build, Planted, Sound};
pub use fault::Fault;
pub use plain::Plain;
pub use play::play_with;
