//! What random scripts come to.

use scripts::{Coverage, Random, Script, Setup, Wish, kind_of};
use second::Second;

/// Plays scripts on the second keeper, which goes along.
fn covered(seed: u64, frames: u32, scripts: u32, wish: Wish) -> Coverage {
    let mut random = Random::new(seed);
    let mut coverage = Coverage::default();
    for _ in 0..scripts {
        let setup = Setup::random(&mut random, frames);
        let script = Script::random(random.draw(), setup, wish);
        let mut keeper = Second::new(frames, &script.setup.devices);
        for text in &script.lines {
            let before = keeper.clone();
            let came = keeper.answer(text);
            coverage.note(&before, text, came);
        }
    }
    coverage
}

#[test]
fn all_that_can_come_of_a_line_comes() {
    let coverage = covered(1, 64, 60, Wish { lines: 500, seeds: true, news: true });
    assert_eq!(coverage.missing(), []);
    assert_eq!(coverage.surplus(), []);
}

#[test]
fn all_states_are_met() {
    let mut coverage = covered(2, 64, 40, Wish { lines: 500, seeds: true, news: true });
    coverage.add(&covered(3, 512, 4, Wish { lines: 3_000, seeds: false, news: true }));
    for state in ["a seed was on", "an end had left it open what is shut", "no frame was idle", "a page was written that was leaving"] {
        assert!(coverage.of("lines where", state) > 20, "{state}:\n{coverage}");
    }
}

#[test]
fn where_there_is_no_frame_for_long() {
    let coverage = covered(4, 512, 6, Wish { lines: 4_000, seeds: false, news: true });
    for kind in ["get", "open", "lend"] {
        assert!(coverage.of(kind, "no 7") > 0, "{kind}:\n{coverage}");
    }
}

#[test]
fn most_lines_come_to_something() {
    let coverage = covered(5, 64, 40, Wish { lines: 500, seeds: false, news: true });
    for (kind, outcome) in [("get", "done"), ("give", "done"), ("lend", "done"), ("recall", "done"), ("load", "load"), ("kept", "put")] {
        let all: u64 = scripts::possible().filter(|(of, _)| *of == kind).map(|(_, name)| coverage.of(kind, name)).sum();
        assert!(coverage.of(kind, outcome) * 4 > all, "{kind} {outcome}:\n{coverage}");
    }
}

#[test]
fn every_line_has_a_kind() {
    let kinds: Vec<&str> = scripts::possible().map(|(kind, _)| kind).collect();
    for text in ["1 get 5", "0 end 1", "dev 1 read 0 0", "keep 1 0", "seed 1", "new", "nonsense"] {
        assert!(kinds.contains(&kind_of(protocol::Line::parse(text.as_bytes()))), "{text}");
    }
}
