//! Whole scripts.

use crate::{BadLine, Board, Ended, Keeper, Script, rounds};
use protocol::{Line, Outcome, Transcript};

/// The lines of a text, `None` for one that is none of the language. A last line without a line feed counts; nothing behind a last
/// line feed is no line.
pub fn lines_of(text: &[u8]) -> Vec<Option<Line>> {
    if text.is_empty() {
        return Vec::new();
    }
    text.strip_suffix(b"\n").unwrap_or(text).split(|b| *b == b'\n').map(Line::parse).collect()
}

/// Lines, and a place for what is said of each.
struct Told<I> {
    lines: I,
    outcomes: Vec<Option<Outcome>>,
}

impl<I: Iterator<Item: Into<Option<Line>>>> Script for Told<I> {
    fn line(&mut self) -> Option<Result<Line, BadLine>> {
        let line = self.lines.next()?.into();
        self.outcomes.push(None);
        Some(line.ok_or(BadLine(self.outcomes.len() as u64)))
    }

    fn outcome(&mut self, o: Outcome) {
        if let Some(last) = self.outcomes.last_mut() {
            *last = Some(o);
        }
    }
}

/// All is over: each line that prints is answered so, until another machine is wanted; whether one is.
fn play_over(script: &mut impl Script) -> bool {
    while let Some(line) = script.line() {
        match line {
            Ok(Line::New) => return true,
            Ok(line) if line.prints() => script.outcome(Outcome::Over),
            Ok(_) => {}
            Err(BadLine(k)) => script.outcome(Outcome::BadLine(k)),
        }
    }
    false
}

/// Plays a script with a keeper, on this machine, which begins as at the start at each `new`. Lines are `Line`s, or `Option`s of
/// them, `None` being a line of text that is no line of a script.
pub fn play(keeper: &mut impl Keeper, board: &mut Board, lines: impl IntoIterator<Item: Into<Option<Line>>>) -> Transcript {
    let mut script = Told { lines: lines.into_iter(), outcomes: Vec::new() };
    let mut logs = Vec::new();
    loop {
        board.reset();
        let again = match rounds(keeper, board, &mut script) {
            Ended::Script => false,
            Ended::New => true,
            Ended::Full => play_over(&mut script),
        };
        logs.push(board.log().to_vec());
        if !again {
            return Transcript { outcomes: script.outcomes, logs };
        }
    }
}
