//! One log for each promise in the specs, which breaks just that one; and its neighbour, which is explained. `docs/PROMISES.md` says what
//! each promise is for.

mod others;
mod rules;

use crate::notation::{log, small};
use crate::reference::{Reference, Use};
use explained::{Reason, Shape, Unexplained, check};
use others::{BOUNDS, DRAINS, PROMISE, THEOREMS};
use rules::{EFFECTS, REFUSALS, RUN};

/// The promise, as the page names it; what comes first; how it may go on, and how it may not, and why not.
pub struct Row(&'static str, &'static str, &'static str, &'static str, Reason);

/// What stands for a beginning in the table, each in words of those after it.
const SHORT: [(&str, &str); 7] = [
    ("NAMED", "LENT; put 0 7 0 = 1 in 9"),
    ("LEAVING", "LENT; 1 recall 5: drain 0 no, later"),
    ("TWO", "LENT; 1 open 1: done"),
    ("LENT", "OPEN; 1 lend 5 0 7 w: done"),
    ("READ", "OPEN; 1 lend 5 0 7 r: done"),
    ("OPEN", "1 get 5: done; 1 open 0: done"),
    ("SHOWN", "1 open 0: done; 1 regs 0 9: done"),
];

/// A log and the machine that it is of: `5 frames; LENT`, or on 64 frames.
fn read(before: &str, ending: &str) -> (Shape, String) {
    let (frames, before) = before.split_once(" frames; ").map_or((64, before), |(n, rest)| (n.parse().expect(before), rest));
    let text = SHORT.iter().fold(before.to_string(), |text, (short, long)| text.replace(short, long));
    (small(frames), format!("{text}; {ending}"))
}

/// The log as the page has it.
fn written(before: &str, ending: &str) -> String {
    if before.is_empty() { ending.to_string() } else { format!("{before}; {ending}") }
}

fn hold(rows: &[Row]) {
    for Row(promise, before, right, wrong, why) in rows {
        let (machine, text) = read(before, right);
        assert_eq!(check(&machine, &log(&text)), Ok(()), "{promise}: {text}");
        let (machine, text) = read(before, wrong);
        let events = log(&text);
        assert_eq!(check(&machine, &events), Err(Unexplained { at: events.len() - 1, why: *why }), "{promise}: {text}");
    }
}

#[test]
fn run() {
    hold(RUN);
}

#[test]
fn refusals() {
    hold(REFUSALS);
}

#[test]
fn effects() {
    hold(EFFECTS);
}

#[test]
fn promise() {
    hold(PROMISE);
}

#[test]
fn theorems() {
    hold(THEOREMS);
}

#[test]
fn bounds() {
    hold(BOUNDS);
}

#[test]
fn drains() {
    hold(DRAINS);
}

/// What is literally meant, on a machine of few frames: whether all of the log is explained, and if not, which event is the first that is not.
fn meant(before: &str, ending: &str) -> Option<usize> {
    let (machine, text) = read(before, ending);
    let few = if machine.frames == 64 { 6 } else { machine.frames };
    let renamed = [(" in 9", " in 3"), (" in 8", " in 4"), (" in 63", " in 5"), (" in 64", " in 6"), (" 511 =", " 1 =")];
    let text = renamed.iter().fold(text, |text, (from, to)| text.replace(from, to));
    let mut reference = Reference::new(&small(few));
    log(&text).iter().position(|event| !reference.event(event))
}

#[test]
fn as_the_meaning_has_it() {
    for Row(promise, before, right, wrong, _) in [RUN, REFUSALS, EFFECTS, PROMISE, THEOREMS].into_iter().flatten() {
        assert_eq!(meant(before, right), None, "{promise}: {right}");
        assert_eq!(meant(before, wrong), Some(log(&read(before, wrong).1).len() - 1), "{promise}: {wrong}");
    }
    for Row(promise, before, right, wrong, _) in DRAINS {
        assert_eq!((meant(before, right), meant(before, wrong)), (None, None), "{promise}");
    }
}

/// What only the meaning refuses, for the checker refuses the drain before.
#[test]
fn what_a_second_drain_says() {
    assert_eq!(meant("LENT; 1 asks recall 5; drain 0 no; drain 0 yes", "1 told recall 5 done"), None);
    assert_eq!(meant("LENT; 1 asks recall 5; drain 0 no; drain 0 yes", "1 told recall 5 later"), Some(9));
    assert_eq!(meant("TWO; 1 asks recall 5; drain 0 yes", "1 told recall 5 done"), None);
    assert_eq!(meant("TWO; 1 asks recall 5; drain 1 yes", "1 told recall 5 done"), Some(10));
}

/// Where the meaning is weaker than `docs/MODEL.md`: a device that was forgotten during an end may be closing after it, if it was asked
/// for twice; and whether it is, is open.
#[test]
fn forgotten_and_still_closing() {
    let twice = "TWO; 0 asks end 1; drain 0 no; drain 1 no; drain 0 yes; 0 told end 1 later";
    assert_eq!(meant(twice, "1 open 0: done"), None);
    assert_eq!(meant(twice, "1 open 0: no 6"), None);
    let once = "TWO; 0 asks end 1; drain 0 yes; drain 1 no; 0 told end 1 later";
    assert_eq!(meant(once, "1 open 0: done"), None);
    assert_eq!(meant(once, "1 open 0: no 6"), Some(13));
}

/// Why a theorem that speaks of some state before says less than one of the state before: a page is any frame until an event names it.
#[test]
fn some_state_and_the_state() {
    let frames = |text: &str| {
        let mut reference = Reference::new(&small(6));
        assert!(log(text).iter().all(|event| reference.event(event)));
        let of = |f: usize| reference.states().any(|s| matches!(s.what[f], Use::Of(1, 5, _)));
        (1..6).filter(|f| of(*f)).collect::<Vec<_>>()
    };
    let lent = read("LENT", "").1;
    assert_eq!(frames(&lent), [1, 2, 3, 4, 5]);
    assert_eq!(frames(&format!("{lent}; 1 asks recall 5; put 0 7 0 = 1 in 3")), [3]);
}

/// A lending that is refused is no lending, though the theorem of what was recalled ends with it.
#[test]
fn asked_is_not_lent() {
    let asked = "NAMED; 1 recall 5: drain 0 yes, done; 1 lend 5 0 262144 w: no 1";
    hold(&[Row("", asked, "miss 0 7 w", "put 0 7 0 = 2 in 9", Reason::WroteNotLent)]);
}

#[test]
fn all_are_written_down() {
    let page = include_str!("../../../../../docs/PROMISES.md");
    let rows = || [RUN, REFUSALS, EFFECTS, PROMISE, THEOREMS, BOUNDS, DRAINS].into_iter().flatten();
    for Row(promise, before, _, wrong, why) in rows() {
        let end = format!("| `{}` | `{why:?}` |", written(before, wrong));
        let there = page.lines().any(|line| line.starts_with(&format!("| {promise} |")) && line.ends_with(&end));
        assert!(there, "{promise}: {end}");
    }
    let (tables, _) = page.split_once("## What no log can show").expect("the tables of logs come before");
    let logs = tables.lines().filter(|line| line.ends_with("` |") && line.matches(" | ").count() == 3).count();
    assert_eq!(logs, rows().count());
}
