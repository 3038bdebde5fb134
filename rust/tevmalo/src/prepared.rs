//! A script of one machine's life whose lines are rows already, with room for what is said of them.

use crate::rows::{Row, Said};
use protocol::{Call, Line, Outcome};

/// A script that is played without reading text and without allocating.
pub struct Prepared {
    pub(crate) rows: Vec<Row>,
    pub(crate) said: Vec<Said>,
}

impl Prepared {
    pub fn new(lines: &[Line]) -> Prepared {
        Prepared { rows: lines.iter().copied().map(Row::from).collect(), said: vec![Said::default(); lines.len()] }
    }

    /// What was said of each line when it was last played.
    pub fn outcomes(&self) -> impl Iterator<Item = Option<Outcome>> {
        self.said.iter().map(|said| said.outcome(0))
    }
}

impl From<Line> for Row {
    fn from(line: Line) -> Row {
        let blank = Row::default();
        match line {
            Line::Call { who, call } => Row { who, ..Row::from(call) },
            Line::Load { who, v, word } => Row { kind: 4, who, a: v, b: word, ..blank },
            Line::Store { who, v, word, x } => Row { kind: 5, who, a: v, b: word, x, ..blank },
            Line::Read { d, p, word } => Row { kind: 8, who: d, a: p, c: word, ..blank },
            Line::Write { d, p, word, x } => Row { kind: 9, who: d, a: p, c: word, x, ..blank },
            Line::Keep { d, p } => Row { kind: 12, who: d, a: p, ..blank },
            Line::Kept { d, p, word, x } => Row { kind: 13, who: d, a: p, c: word, x, ..blank },
            Line::Refuse { n } => Row { kind: 14, x: n, ..blank },
            Line::Seed { s } => Row { kind: 15, x: s, ..blank },
            Line::New => Row { kind: 16, ..blank },
        }
    }
}

impl From<Call> for Row {
    fn from(call: Call) -> Row {
        let (call, a, b, c, flag) = match call {
            Call::Get { v } => (0, v, 0, 0, 0),
            Call::Free { v } => (1, v, 0, 0, 0),
            Call::Give { v, to, at } => (2, v, to, at, 0),
            Call::Open { d } => (3, d, 0, 0, 0),
            Call::Close { d } => (4, d, 0, 0, 0),
            Call::Regs { d, v } => (5, d, v, 0, 0),
            Call::Lend { v, d, p, writes } => (6, v, d, p, u32::from(writes)),
            Call::Recall { v } => (7, v, 0, 0, 0),
            Call::End { who } => (8, who, 0, 0, 0),
        };
        Row { call, a, b, c, flag, ..Row::default() }
    }
}
