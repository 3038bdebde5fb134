//! Logs as text.
//!
//! Events stand between semicolons:
//!
//! - `1 load 5 0 = 88`, `1 store 5 0 = 88`, `1 fault 5`, `1 poke 9 2`
//! - `took 0 700 0 = 88 in 9` (device, page, word, the word's value, frame), `put 0 700 0 = 88 in 9`, `miss 0 700 w`, `drain 0 yes`
//! - `1 asks recall 5`, `1 told recall 5 no 4`
//! - a call, what comes between, and its answer: `1 recall 5: drain 0 no, put 0 700 0 = 88 in 9, later`

use explained::{Checker, Reason, Shape, Unexplained, check};
use protocol::{Answer, Call, Device, Event, Line};

/// 64 frames and four devices. 0 and 1 are driven by program 1, 2 and 3 by program 2; 0 and 2 are of one group.
pub fn machine() -> Shape {
    let device = |group, driver| Device { group, driver };
    Shape { frames: 64, devices: vec![device(0, 1), device(1, 1), device(0, 2), device(2, 2)] }
}

pub fn small(frames: u32) -> Shape {
    Shape { frames, ..machine() }
}

/// The log is explained.
#[track_caller]
pub fn explained(text: &str) {
    assert_eq!(check(&machine(), &log(text)), Ok(()), "{text}");
}

/// All of the log but its last event is explained, and that breaks this promise.
#[track_caller]
pub fn breaks(reason: Reason, text: &str) {
    breaks_on(&machine(), reason, text);
}

#[track_caller]
pub fn breaks_on(machine: &Shape, reason: Reason, text: &str) {
    let log = log(text);
    assert_eq!(check(machine, &log), Err(Unexplained { at: log.len() - 1, why: reason }), "{text}");
}

/// After `before`, one ending is explained and the other breaks this promise.
#[track_caller]
pub fn sides(before: &str, right: &str, wrong: &str, reason: Reason) {
    explained(&format!("{before}; {right}"));
    breaks(reason, &format!("{before}; {wrong}"));
}

/// A checker that has heard a log.
pub fn after(machine: &Shape, text: &str) -> Checker {
    let mut checker = Checker::new(machine);
    for event in log(text) {
        checker.event(&event).unwrap_or_else(|why| panic!("{event}: {why}"));
    }
    checker
}

pub fn log(text: &str) -> Vec<Event> {
    let mut events = Vec::new();
    for part in text.split(';').map(str::trim).filter(|part| !part.is_empty()) {
        match part.split_once(':') {
            None => events.push(event(part)),
            Some((asked, rest)) => {
                let (who, call) = call(asked);
                events.push(Event::Asked { who, call });
                let (between, told) = rest.rsplit_once(',').unwrap_or(("", rest));
                events.extend(between.split(',').filter(|e| !e.trim().is_empty()).map(event));
                events.push(Event::Told { who, call, answer: answer(told) });
            }
        }
    }
    events
}

fn call(text: &str) -> (u32, Call) {
    match Line::parse(text.trim().as_bytes()) {
        Some(Line::Call { who, call }) => (who, call),
        _ => panic!("no call: {text}"),
    }
}

fn answer(text: &str) -> Answer {
    match text.split_whitespace().collect::<Vec<_>>()[..] {
        ["done"] => Answer::Done,
        ["later"] => Answer::Later,
        ["no", n] => Answer::No(number(n)),
        _ => panic!("no answer: {text}"),
    }
}

fn event(text: &str) -> Event {
    let words: Vec<&str> = text.split_whitespace().collect();
    match words[..] {
        [who, "asks", ..] => {
            let (who, call) = call(&format!("{who} {}", words[2..].join(" ")));
            Event::Asked { who, call }
        }
        [who, "told", ref rest @ ..] => {
            let cut = rest.iter().position(|w| ["done", "later", "no"].contains(w)).expect("an answer");
            let (who, call) = call(&format!("{who} {}", rest[..cut].join(" ")));
            Event::Told { who, call, answer: answer(&rest[cut..].join(" ")) }
        }
        [who, "load", v, word, "=", x] => Event::Loaded { who: number(who), v: number(v), word: number(word), x: exact(x) },
        [who, "store", v, word, "=", x] => Event::Stored { who: number(who), v: number(v), word: number(word), x: exact(x) },
        [who, "fault", v] => Event::Faulted { who: number(who), v: number(v) },
        [who, "poke", v, d] => Event::Poked { who: number(who), v: number(v), d: number(d) },
        ["took", d, p, word, "=", x, "in", frame] => {
            Event::Took { d: number(d), p: number(p), frame: number(frame), word: number(word), x: exact(x) }
        }
        ["put", d, p, word, "=", x, "in", frame] => {
            Event::Put { d: number(d), p: number(p), frame: number(frame), word: number(word), x: exact(x) }
        }
        ["miss", d, p, how] => Event::Missed { d: number(d), p: number(p), writes: how == "w" },
        ["drain", d, said] => Event::Drained { d: number(d), said: said == "yes" },
        _ => panic!("no event: {text}"),
    }
}

fn number(text: &str) -> u32 {
    text.parse().expect(text)
}

fn exact(text: &str) -> u64 {
    text.parse().expect(text)
}
