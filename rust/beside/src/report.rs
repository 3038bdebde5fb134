//! What has been played, and what was found.

use crate::compare::Difference;
use crate::plan::Plan;
use protocol::{Line, Transcript};
use scripts::{Coverage, Text};
use std::collections::BTreeMap;
use std::fmt;

/// Something that the rules do not allow.
#[derive(Clone, Debug, PartialEq, Eq)]
pub enum Finding {
    /// What was said of a line.
    Difference(Difference),
    /// A log that is not explained, or that is not what was printed; and why.
    Log(String),
}

impl fmt::Display for Finding {
    fn fmt(&self, f: &mut fmt::Formatter<'_>) -> fmt::Result {
        match self {
            Finding::Difference(difference) => difference.fmt(f),
            Finding::Log(why) => f.write_str(why),
        }
    }
}

/// A difference that a script showed, and the script, shortened.
#[derive(Clone, Debug)]
pub struct Shown {
    pub plan: Plan,
    pub finding: Finding,
    pub short: Vec<Text>,
    pub in_short: Finding,
}

impl fmt::Display for Shown {
    fn fmt(&self, f: &mut fmt::Formatter<'_>) -> fmt::Result {
        writeln!(f, "difference: script {} on {}", self.plan.seed, self.plan.setup)?;
        writeln!(f, "  {}", self.finding)?;
        writeln!(f, "shortened to {} lines: {}", self.short.len(), self.in_short)?;
        self.short.iter().try_for_each(|line| writeln!(f, "  {}", line.escape_ascii()))
    }
}

/// What was played on machines of one size.
#[derive(Clone, Copy, Debug, Default)]
struct Row {
    scripts: u64,
    lines: u64,
    seeded: u64,
    events: u64,
}

/// What was played, and how many differences there were.
#[derive(Clone, Debug, Default)]
pub struct Report {
    rows: BTreeMap<u32, Row>,
    pub coverage: Coverage,
    pub differences: u64,
}

impl Report {
    pub fn played(&mut self, plan: &Plan, lines: &[Text], transcript: &Transcript) {
        let seeds = |text: &Text| matches!(Line::parse(text), Some(Line::Seed { .. }));
        let row = self.rows.entry(plan.setup.frames).or_default();
        row.scripts += 1;
        row.lines += lines.len() as u64;
        row.seeded += u64::from(lines.iter().any(seeds));
        row.events += transcript.logs.iter().map(|log| log.len() as u64).sum::<u64>();
    }

    pub fn lines(&self) -> u64 {
        self.rows.values().map(|row| row.lines).sum()
    }
}

impl fmt::Display for Report {
    fn fmt(&self, f: &mut fmt::Formatter<'_>) -> fmt::Result {
        writeln!(f, "{:>8} {:>8} {:>12} {:>10} {:>10}", "frames", "scripts", "with a seed", "lines", "events")?;
        for (frames, row) in &self.rows {
            writeln!(f, "{frames:>8} {:>8} {:>12} {:>10} {:>10}", row.scripts, row.seeded, row.lines, row.events)?;
        }
        writeln!(f, "\n{}", self.coverage)?;
        write!(f, "{} lines played, {} differences", self.lines(), self.differences)
    }
}
