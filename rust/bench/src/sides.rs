//! Those that are timed: the proved keeper on the proved machine, the plain keeper on the plain machine, and the plain machine alone.

use machine::{Board, Capacities, Recorder, Replay, run};
use plain::Plain;
use protocol::{Device, Line, Outcome};
use std::time::{Duration, Instant};
use tevmalo::{Machine, Prepared};

/// As many events as a run may bring about.
pub const EVENTS: usize = 2_200_000;
/// What the IOMMU may keep of each kind; nothing is kept here.
const KEPT: usize = 64;

/// Plays a script and says how long that took.
pub trait Side {
    fn time(&mut self, lines: &[Line]) -> Duration;
}

/// The proved keeper.
pub struct Proved {
    machine: Machine,
}

impl Proved {
    pub fn new(frames: u32, devices: &[Device]) -> Proved {
        Proved { machine: Machine::new(frames, devices, EVENTS).expect("a machine") }
    }

    /// What comes of each line.
    pub fn outcomes(&mut self, lines: &[Line]) -> Vec<Outcome> {
        let mut script = Prepared::new(lines);
        self.machine.run(&mut script).expect("in range");
        script.outcomes().flatten().collect()
    }
}

impl Side for Proved {
    fn time(&mut self, lines: &[Line]) -> Duration {
        let mut script = Prepared::new(lines);
        let start = Instant::now();
        let played = self.machine.run(&mut script);
        let took = start.elapsed();
        assert_eq!(played, Ok(lines.len()));
        took
    }
}

/// The plain keeper.
pub struct Unproved {
    board: Board,
    keeper: Plain,
}

impl Unproved {
    pub fn new(frames: u32, devices: &[Device]) -> Unproved {
        Unproved { board: Board::new(frames, devices, Capacities::of(KEPT, EVENTS)).expect("a machine"), keeper: Plain::new(frames) }
    }

    /// What comes of each line, and how often the machine was asked.
    pub fn outcomes(&mut self, lines: &[Line]) -> (Vec<Outcome>, u64) {
        let mut outcomes = vec![Outcome::Over; lines.len()];
        self.board.reset();
        run(&mut self.keeper, &mut self.board, lines, &mut outcomes);
        let said = lines.iter().zip(outcomes).filter(|(line, _)| line.prints()).map(|(_, o)| o).collect();
        (said, self.board.asks())
    }
}

impl Side for Unproved {
    fn time(&mut self, lines: &[Line]) -> Duration {
        let mut outcomes = vec![Outcome::Over; lines.len()];
        let start = Instant::now();
        self.board.reset();
        let (played, _) = run(&mut self.keeper, &mut self.board, lines, &mut outcomes);
        let took = start.elapsed();
        assert_eq!(played, lines.len());
        took
    }
}

/// The plain machine, asked for what a keeper asked for.
pub struct Alone {
    board: Board,
    frames: u32,
}

impl Alone {
    pub fn new(frames: u32, devices: &[Device]) -> Alone {
        Alone { board: Board::new(frames, devices, Capacities::of(KEPT, EVENTS)).expect("a machine"), frames }
    }

    fn record(&mut self, lines: &[Line]) -> Replay {
        let mut recorder = Recorder::new(<Plain>::new(self.frames));
        let mut outcomes = vec![Outcome::Over; lines.len()];
        self.board.reset();
        run(&mut recorder, &mut self.board, lines, &mut outcomes);
        recorder.replay()
    }
}

impl Side for Alone {
    fn time(&mut self, lines: &[Line]) -> Duration {
        let mut replay = self.record(lines);
        let mut outcomes = vec![Outcome::Over; lines.len()];
        let start = Instant::now();
        self.board.reset();
        let (played, _) = run(&mut replay, &mut self.board, lines, &mut outcomes);
        let took = start.elapsed();
        assert_eq!(played, lines.len());
        took
    }
}
