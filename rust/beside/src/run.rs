//! Plays scripts, and looks for what the rules do not allow.

use crate::compare::compare;
use crate::logs::explain;
use crate::plan::Plan;
use crate::player::Player;
use crate::report::{Finding, Report, Shown};
use crate::spoken::spoken;
use protocol::{Outcome, Transcript};
use scripts::{Setup, Text, bytes_of, shorten};
use second::Second;

/// Only so many differences are shown; all are counted.
const MOST_SHOWN: u64 = 5;

/// Plays all these scripts. `show` is told of differences, as they come.
pub fn run(player: &mut impl Player, plans: impl Iterator<Item = Plan>, mut show: impl FnMut(&Shown)) -> Report {
    let mut report = Report::default();
    for plan in plans {
        let script = plan.script();
        let transcript = player.play(script.setup.frames, &script.setup.devices, &script.bytes());
        report.played(&plan, &script.lines, &transcript);
        let coverage = &mut report.coverage;
        let found = judge(&script.setup, &script.lines, &transcript, |keeper, text, came| coverage.note(keeper, text, came));
        if let Some(finding) = found {
            report.differences += 1;
            if report.differences <= MOST_SHOWN {
                show(&shortened(player, plan, &script.lines, finding));
            }
        }
    }
    report
}

/// What the rules do not allow of what is said of these lines, or of what happens.
pub fn find(player: &mut impl Player, setup: &Setup, lines: &[Text]) -> Option<Finding> {
    let transcript = player.play(setup.frames, &setup.devices, &bytes_of(lines));
    judge(setup, lines, &transcript, |_, _, _| ())
}

/// What was said comes before the second keeper; the logs come before the checker, if the player has logs.
fn judge(setup: &Setup, lines: &[Text], transcript: &Transcript, note: impl FnMut(&Second, &[u8], Option<Outcome>)) -> Option<Finding> {
    if let Err(difference) = compare(Second::new(setup.frames, &setup.devices), lines, transcript, note) {
        return Some(Finding::Difference(difference));
    }
    if transcript.logs.is_empty() {
        return None;
    }
    spoken(lines, transcript).and_then(|()| explain(setup, &transcript.logs)).err().map(Finding::Log)
}

fn shortened(player: &mut impl Player, plan: Plan, lines: &[Text], finding: Finding) -> Shown {
    let end = match &finding {
        Finding::Difference(difference) => difference.line.min(lines.len()),
        Finding::Log(_) => lines.len(),
    };
    let short = shorten(&lines[..end], |lines| find(player, &plan.setup, lines).is_some());
    let in_short = find(player, &plan.setup, &short).unwrap_or_else(|| finding.clone());
    Shown { plan, finding, short, in_short }
}
