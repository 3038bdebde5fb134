//! The proved keeper beside the second one.

use beside::{Beside, Finding, Player, Proved, compare, find, plans, run};
use protocol::{Device, Event, Transcript};
use scripts::{Random, Script, Setup, Wish};
use second::{Fault, Second};

#[test]
fn no_differences() {
    let report = run(&mut Proved, plans(30_000, 1), |shown| println!("{shown}"));
    assert_eq!((report.lines(), report.differences), (30_000, 0));
    assert_eq!(report.coverage.surplus(), []);
}

/// A second keeper with a fault does not expect what the proved one says, with seeds or without.
#[test]
fn each_fault_is_seen() {
    for seeds in [false, true] {
        let mut random = Random::new(2);
        let mut unseen = Fault::ALL.to_vec();
        for _ in 0..300 {
            let setup = Setup::random(&mut random, 64);
            let script = Script::random(random.draw(), setup, Wish { lines: 500, seeds, news: true });
            let said = Proved.play(script.setup.frames, &script.setup.devices, &script.bytes());
            unseen.retain(|fault| {
                let faulty = Second::with_fault(script.setup.frames, &script.setup.devices, Some(*fault));
                compare(faulty, &script.lines, &said, |_, _, _| ()).is_ok()
            });
        }
        assert_eq!(unseen, [], "seeds: {seeds}");
    }
}

/// The proved keeper, but other events are in its logs.
struct Misheard(fn(&mut Vec<Event>));

impl Player for Misheard {
    fn play(&mut self, frames: u32, devices: &[Device], script: &[u8]) -> Transcript {
        let mut transcript = Proved.play(frames, devices, script);
        transcript.logs.iter_mut().for_each(self.0);
        transcript
    }
}

/// The first finding, and how many lines are enough for it.
fn heard(change: fn(&mut Vec<Event>)) -> Option<(String, usize)> {
    let mut found = None;
    let small = plans(20_000, 1).filter(|plan| plan.setup.frames == 64).take(5);
    run(&mut Misheard(change), small, |shown| {
        let heard = matches!(shown.in_short, Finding::Log(_)).then(|| (shown.in_short.to_string(), shown.short.len()));
        found = found.take().or(heard);
    });
    found
}

#[test]
fn logs_are_checked() {
    let other_word = heard(|log| {
        log.iter_mut().for_each(|event| {
            if let Event::Took { x, .. } = event {
                *x = x.wrapping_add(1);
            }
        });
    });
    assert!(other_word.as_ref().is_some_and(|(why, lines)| why.contains("explained") && *lines <= 6), "{other_word:?}");
}

#[test]
fn logs_are_what_was_printed() {
    let one_less = heard(|log| {
        if let Some(k) = log.iter().rposition(|event| matches!(event, Event::Stored { .. })) {
            log.remove(k);
        }
    });
    assert!(one_less.as_ref().is_some_and(|(why, lines)| why.contains("nothing, where was printed") && *lines <= 3), "{one_less:?}");
    let none = heard(Vec::clear);
    assert!(none.is_some_and(|(_, lines)| lines == 1));
}

/// What a script is that has no line, no line feed at its end, or lines of nothing.
#[test]
fn ends_of_scripts() {
    let setup = Setup::dome();
    for script in [&b""[..], b"\n", b"\n\n", b"1 get 5", b"1 get 5\n", b"1 get 5\n\n", b"new", b"new\n1 get 5\nnew\n", b"no 1\nseed 1"] {
        let proved = Proved.play(setup.frames, &setup.devices, script);
        let second = Beside::default().play(setup.frames, &setup.devices, script);
        assert_eq!(proved.outcomes, second.outcomes, "{}", script.escape_ascii());
    }
}

/// A program with a page at every place, and as many devices as there are, is ended.
#[test]
fn the_largest_end() {
    let mut random = Random::new(3);
    let mut setup = Setup::random(&mut random, 65_536);
    setup.devices = vec![protocol::Device { group: 7, driver: 31 }; 32];
    let mut lines: Vec<String> = (0..32).map(|d| format!("31 open {d}")).collect();
    lines.extend((0..1024).map(|v| format!("31 get {v}")));
    lines.extend((0..1024).map(|v| format!("31 lend {v} {} {} w", v % 32, v * 256)));
    lines.extend((0..1024).map(|v| format!("keep {} {}", v % 32, v * 256)));
    lines.extend(["no 31", "0 end 31", "31 close 31", "31 load 1023 0", "no 5", "0 end 31", "seed 1", "0 end 31"].map(String::from));
    lines.extend((0..32).map(|d| format!("31 close {d}")));
    lines.extend((0..9).map(|_| "0 end 31".to_string()));
    lines.extend((0..1024).map(|v| format!("31 get {v}")));
    let lines: Vec<_> = lines.into_iter().map(String::into_bytes).collect();
    assert_eq!(find(&mut Proved, &setup, &lines), None);
}
