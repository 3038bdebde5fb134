//! How often each came of each.

use protocol::{Call, Line, Outcome};
use second::{Second, Use};
use std::collections::BTreeMap;
use std::fmt;

/// How often each outcome came of each kind of line, and how often some states were met.
#[derive(Clone, Debug, Default)]
pub struct Coverage(BTreeMap<(&'static str, &'static str), u64>);

impl Coverage {
    /// This is the next line, this came of it, and the keeper is as it was before.
    pub fn note(&mut self, keeper: &Second, text: &[u8], came: Option<Outcome>) {
        let line = Line::parse(text);
        self.count(kind_of(line), came.map_or("-", name_of));
        if keeper.is_lost() {
            self.count("lines where", "too much was unknown");
            return;
        }
        if keeper.is_seeded() {
            self.count("lines where", "a seed was on");
        }
        if keeper.worlds() > 1 {
            self.count("lines where", "an end had left it open what is shut");
        }
        if keeper.idle() == 0 {
            self.count("lines where", "no frame was idle");
        }
        if let (Some(Line::Kept { d, p, .. }), Some(Outcome::Put)) = (line, came)
            && let Some(page) = keeper.away((d, p)).and_then(|place| keeper.page(place))
            && matches!(page.at, Use::Leaving(_))
        {
            self.count("lines where", "a page was written that was leaving");
        }
    }

    pub fn add(&mut self, other: &Coverage) {
        for (key, n) in &other.0 {
            *self.0.entry(*key).or_default() += n;
        }
    }

    pub fn of(&self, kind: &'static str, name: &'static str) -> u64 {
        self.0.get(&(kind, name)).copied().unwrap_or(0)
    }

    /// What can come of a line, and never did.
    pub fn missing(&self) -> Vec<(&'static str, &'static str)> {
        possible().filter(|(kind, name)| self.of(kind, name) == 0).collect()
    }

    /// What came of a line, and cannot.
    pub fn surplus(&self) -> Vec<(&'static str, &'static str)> {
        let can: Vec<_> = possible().collect();
        self.0.keys().filter(|key| key.0 != "lines where" && !can.contains(key)).copied().collect()
    }

    fn count(&mut self, kind: &'static str, name: &'static str) {
        *self.0.entry((kind, name)).or_default() += 1;
    }
}

/// A row for each kind of line.
impl fmt::Display for Coverage {
    fn fmt(&self, f: &mut fmt::Formatter<'_>) -> fmt::Result {
        let mut last = "";
        for ((kind, name), n) in &self.0 {
            if *kind != last {
                write!(f, "{}{kind:12}", if last.is_empty() { "" } else { "\n" })?;
            }
            write!(f, "  {name} {n}")?;
            last = kind;
        }
        writeln!(f)
    }
}

/// What a line is.
pub fn kind_of(line: Option<Line>) -> &'static str {
    match line {
        None => "none",
        Some(Line::Call { call, .. }) => match call {
            Call::Get { .. } => "get",
            Call::Free { .. } => "free",
            Call::Give { .. } => "give",
            Call::Open { .. } => "open",
            Call::Close { .. } => "close",
            Call::Regs { .. } => "regs",
            Call::Lend { .. } => "lend",
            Call::Recall { .. } => "recall",
            Call::End { .. } => "end",
        },
        Some(Line::Store { .. }) => "store",
        Some(Line::Load { .. }) => "load",
        Some(Line::Read { .. }) => "dev read",
        Some(Line::Write { .. }) => "dev write",
        Some(Line::Keep { .. }) => "keep",
        Some(Line::Kept { .. }) => "kept",
        Some(Line::Refuse { .. }) => "no",
        Some(Line::Seed { .. }) => "seed",
        Some(Line::New) => "new",
    }
}

/// An outcome, without the word or the number of the line.
pub fn name_of(outcome: Outcome) -> &'static str {
    const NO: [&str; 10] = ["no 0", "no 1", "no 2", "no 3", "no 4", "no 5", "no 6", "no 7", "no 8", "no 9"];
    match outcome {
        Outcome::Done => "done",
        Outcome::Later => "later",
        Outcome::No(n) => NO.get(n as usize).copied().unwrap_or("no ?"),
        Outcome::Loaded(_) => "load",
        Outcome::Stored => "stored",
        Outcome::Fault => "fault",
        Outcome::Poked => "poked",
        Outcome::Took(_) => "took",
        Outcome::Put => "put",
        Outcome::Miss => "miss",
        Outcome::Kept => "kept",
        Outcome::Nothing => "nothing",
        Outcome::Over => "over",
        Outcome::BadLine(_) => "line ?",
    }
}

/// All that can come of each kind of line.
pub fn possible() -> impl Iterator<Item = (&'static str, &'static str)> {
    POSSIBLE.iter().flat_map(|(kind, names)| names.iter().map(|name| (*kind, *name)))
}

const POSSIBLE: [(&str, &[&str]); 19] = [
    ("get", &["done", "no 1", "no 3", "no 7"]),
    ("free", &["done", "no 1", "no 2", "no 4"]),
    ("give", &["done", "no 1", "no 2", "no 3", "no 4"]),
    ("open", &["done", "no 1", "no 5", "no 6", "no 7"]),
    ("close", &["done", "later", "no 1", "no 5"]),
    ("regs", &["done", "no 1", "no 3", "no 5"]),
    ("lend", &["done", "no 1", "no 2", "no 3", "no 4", "no 5", "no 7"]),
    ("recall", &["done", "later", "no 1", "no 2", "no 4"]),
    ("end", &["done", "later", "no 1", "no 8"]),
    ("store", &["stored", "fault", "poked", "no 1"]),
    ("load", &["load", "fault", "poked", "no 1"]),
    ("dev read", &["took", "miss", "no 1"]),
    ("dev write", &["put", "miss", "no 1"]),
    ("keep", &["kept", "nothing", "no 1"]),
    ("kept", &["put", "miss", "no 1"]),
    ("no", &["-"]),
    ("seed", &["-"]),
    ("new", &["-"]),
    ("none", &["line ?"]),
];
