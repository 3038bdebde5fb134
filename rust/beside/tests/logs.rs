//! The plain keeper with its mistakes: where it has none, all that happens is what happens with the proved one; and where it has one,
//! the checker refuses a log.

use beside::{Player, Proved, plans};
use explained::{Reason, Shape, check};
use machine::{Capacities, lines_of};
use plain::{Fault, play_with};
use protocol::Transcript;
use scripts::{Random, Script, Setup, Wish};
use std::collections::BTreeMap;

/// More events than a script here brings about.
const EVENTS: usize = 400_000;

fn played(fault: Option<Fault>, setup: &Setup, script: &[u8], events: usize) -> Transcript {
    let kept = Capacities::of(setup.frames as usize, events);
    play_with(fault, setup.frames, &setup.devices, &lines_of(script), kept)
}

/// Scripts on small machines, the first of them for what seldom comes about.
fn scripts() -> impl Iterator<Item = (Setup, Vec<u8>)> {
    let asked_too_soon = "1 get 5\n1 open 0\n1 lend 5 0 700 w\nseed 420\n1 recall 5\n";
    let first = (Setup::dome(), format!("{asked_too_soon}{}", "1 load 5 0\n".repeat(20)).into_bytes());
    let mut random = Random::new(7);
    std::iter::once(first).chain((0..1_000).map(move |_| {
        let setup = Setup::random(&mut random, 64);
        let script = Script::random(random.draw(), setup.clone(), Wish { lines: 800, seeds: true, news: true });
        (setup, script.bytes())
    }))
}

/// Why the checker refuses a log, if it does.
fn unexplained(setup: &Setup, transcript: &Transcript) -> Option<Reason> {
    let shape = Shape { frames: setup.frames, devices: setup.devices.clone() };
    transcript.logs.iter().find_map(|log| check(&shape, log).err()).map(|unexplained| unexplained.why)
}

#[test]
fn both_keepers_bring_about_the_same() {
    for plan in plans(300_000, 11) {
        let script = plan.script();
        let proved = Proved.play(script.setup.frames, &script.setup.devices, &script.bytes());
        let events = proved.logs.iter().map(Vec::len).max().unwrap_or(0);
        let plain = played(None, &script.setup, &script.bytes(), events + 4_096);
        assert_eq!(proved, plain, "script {} on {}", plan.seed, plan.setup);
    }
}

#[test]
fn without_a_mistake_all_is_explained() {
    for (setup, script) in scripts() {
        assert_eq!(unexplained(&setup, &played(None, &setup, &script, EVENTS)), None);
    }
}

#[test]
fn each_mistake_is_refused() {
    for &fault in Fault::ALL {
        let mut reasons = BTreeMap::new();
        for (setup, script) in scripts().take(400) {
            if let Some(reason) = unexplained(&setup, &played(Some(fault), &setup, &script, EVENTS)) {
                *reasons.entry(reason.to_string()).or_insert(0) += 1;
            }
        }
        let refused: u32 = reasons.values().sum();
        assert!(refused > 0, "{fault:?} is not found");
        let often = reasons.iter().max_by_key(|(_, n)| **n).expect("at least one").0;
        println!("{fault:?}: {refused} of 400 scripts, most often: {often}");
    }
}
