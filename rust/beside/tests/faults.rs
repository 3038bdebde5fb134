//! Random scripts find what is wrong with a keeper.

use beside::{Beside, Finding, Player, compare, find};
use scripts::{Random, Script, Setup, Wish, shorten};
use second::{Fault, Second};

/// The first script that shows a difference.
fn first(player: &mut impl Player, seeds: bool) -> Option<(Script, Finding)> {
    scripts(seeds).find_map(|script| {
        let finding = find(player, &script.setup, &script.lines)?;
        Some((script, finding))
    })
}

/// Scripts on small machines, with 150,000 lines together.
fn scripts(seeds: bool) -> impl Iterator<Item = Script> {
    let mut random = Random::new(1);
    (0..300).map(move |_| {
        let setup = Setup::random(&mut random, 64);
        Script::random(random.draw(), setup, Wish { lines: 500, seeds, news: true })
    })
}

#[test]
fn the_second_keeper_is_as_it_expects() {
    assert!(first(&mut Beside::default(), false).is_none());
    assert!(first(&mut Beside::default(), true).is_none());
}

#[test]
fn each_fault_is_found() {
    for fault in Fault::ALL {
        let mut faulty = Beside { fault: Some(fault) };
        let (script, _) = first(&mut faulty, false).unwrap_or_else(|| panic!("{fault:?} is not found"));
        let short = shorten(&script.lines, |lines| find(&mut faulty, &script.setup, lines).is_some());
        // Where it shows only when no frame is idle, it takes as many lines as there are frames.
        assert!(short.len() <= 80, "{fault:?}: {}", short.len());
    }
}

#[test]
fn each_fault_is_found_with_seeds() {
    for fault in Fault::ALL {
        assert!(first(&mut Beside { fault: Some(fault) }, true).is_some(), "{fault:?} is not found");
    }
}

/// A keeper with a fault does not expect what the right one says.
#[test]
fn each_fault_is_seen_from_its_side() {
    for fault in Fault::ALL {
        let differs = |script: Script| {
            let right = Beside::default().play(script.setup.frames, &script.setup.devices, &script.bytes());
            let faulty = Second::with_fault(script.setup.frames, &script.setup.devices, Some(fault));
            compare(faulty, &script.lines, &right, |_, _, _| ()).is_err()
        };
        assert!(scripts(true).any(differs), "{fault:?} is not seen");
    }
}
