//! The loop between programs and the keeper.

use crate::{Board, Keeper};
use protocol::{Call, Line, Outcome, PROGRAMS};

/// A line of text that is no line of a script, by its number.
#[derive(Clone, Copy, Debug, PartialEq, Eq)]
pub struct BadLine(pub u64);

/// A script has two ends: one gives lines, the other takes what came of them.
pub trait Script {
    fn line(&mut self) -> Option<Result<Line, BadLine>>;
    /// What came of the line that was given last. There is none for a line that does not print.
    fn outcome(&mut self, o: Outcome);
}

/// Why there is no call any more.
#[derive(Clone, Copy, Debug, PartialEq, Eq)]
pub enum Ended {
    /// The script is at its end.
    Script,
    /// Another machine is wanted.
    New,
    /// The log is full.
    Full,
}

/// The keeper serves a call, which is noted when it is asked and when it is answered.
#[inline]
fn serve(keeper: &mut impl Keeper, board: &mut Board, who: u32, call: Call) -> Outcome {
    if who >= PROGRAMS {
        return Outcome::No(1);
    }
    board.ask(who, call);
    let answer = keeper.serve(board, who, call);
    board.tell(who, call, answer);
    answer.into()
}

/// The keeper sets up a machine that is as at the start, and serves each call of a script until there is none any more. There is an
/// opportunity for tricks before each line. Nothing is played any more once the log has no room for a call.
pub fn rounds(keeper: &mut impl Keeper, board: &mut Board, script: &mut impl Script) -> Ended {
    keeper.boot(board);
    loop {
        board.play();
        let line = match script.line() {
            Some(Ok(Line::New)) => return Ended::New,
            Some(Ok(line)) => line,
            Some(Err(BadLine(k))) => {
                script.outcome(Outcome::BadLine(k));
                continue;
            }
            None => return Ended::Script,
        };
        if !board.has_room_for_call() {
            if line.prints() {
                script.outcome(Outcome::Over);
            }
            return Ended::Full;
        }
        if let Line::Call { who, call } = line {
            script.outcome(serve(keeper, board, who, call));
        } else if let Some(o) = board.play_line(line) {
            script.outcome(o);
        }
    }
}

/// A script of lines that are there already; what is said of each goes to the same place of `outcomes`.
pub struct Lines<'a> {
    lines: &'a [Line],
    outcomes: &'a mut [Outcome],
    next: usize,
}

impl<'a> Lines<'a> {
    /// There is an outcome for each line, which stays as it is where nothing is said.
    pub fn new(lines: &'a [Line], outcomes: &'a mut [Outcome]) -> Lines<'a> {
        assert!(lines.len() <= outcomes.len(), "an outcome for each line");
        Lines { lines, outcomes, next: 0 }
    }
}

impl Script for Lines<'_> {
    #[inline]
    fn line(&mut self) -> Option<Result<Line, BadLine>> {
        let line = *self.lines.get(self.next)?;
        self.next += 1;
        Some(Ok(line))
    }

    #[inline]
    fn outcome(&mut self, o: Outcome) {
        self.outcomes[self.next - 1] = o;
    }
}

/// Lines on a machine as at the start, without text, and with nothing allocated: outcomes go into a slice and events into the log,
/// whose room is there. How many lines were played, and why no more.
pub fn run(keeper: &mut impl Keeper, board: &mut Board, lines: &[Line], outcomes: &mut [Outcome]) -> (usize, Ended) {
    let mut script = Lines::new(lines, outcomes);
    let ended = rounds(keeper, board, &mut script);
    (script.next, ended)
}
