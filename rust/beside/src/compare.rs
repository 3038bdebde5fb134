//! What was said, line by line, beside what the rules allow.

use protocol::{Outcome, Transcript};
use scripts::Text;
use second::{Expect, Second};
use std::fmt;

/// The first line of which something was said that the rules do not allow. Lines are numbered from 1.
#[derive(Clone, Debug, PartialEq, Eq)]
pub struct Difference {
    pub line: usize,
    pub expected: Option<Expect>,
    pub came: Option<Outcome>,
}

impl fmt::Display for Difference {
    fn fmt(&self, f: &mut fmt::Formatter<'_>) -> fmt::Result {
        write!(f, "line {}: expected: ", self.line)?;
        match &self.expected {
            Some(expected) => write!(f, "{expected}")?,
            None => write!(f, "the end")?,
        }
        match self.came {
            Some(came) => write!(f, "; came: {came}"),
            None => write!(f, "; nothing came"),
        }
    }
}

/// Follows a script with a second keeper, from its start on. `note` is told each line and what came of it, with the keeper as it was
/// before.
pub fn compare(
    mut keeper: Second,
    lines: &[Text],
    transcript: &Transcript,
    mut note: impl FnMut(&Second, &[u8], Option<Outcome>),
) -> Result<(), Difference> {
    let mut outcomes = transcript.outcomes.iter().copied();
    for (k, text) in lines.iter().enumerate() {
        let expected = || Some(keeper.expect(text));
        let came = outcomes.next().ok_or_else(|| Difference { line: k + 1, expected: expected(), came: None })?;
        note(&keeper, text, came);
        keeper.follow(text, came).map_err(|expected| Difference { line: k + 1, expected: Some(expected), came })?;
    }
    match outcomes.next() {
        Some(came) => Err(Difference { line: lines.len() + 1, expected: None, came }),
        None => Ok(()),
    }
}
