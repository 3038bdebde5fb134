//! Random scripts: with mistakes, on machines of many frames, and in other loops.

mod common;

use common::{DEVICES, script};
use machine::{Board, Capacities, Machine, Recorder, play, run};
use plain::{Fault, Plain, play_with};
use protocol::{Event, Line, Outcome, Transcript};

const CAPACITIES: Capacities = Capacities::of(64, 50_000);

fn played(fault: Option<Fault>, frames: u32, script: &[Line]) -> Transcript {
    let lines: Vec<_> = script.iter().copied().map(Some).collect();
    play_with(fault, frames, &DEVICES, &lines, CAPACITIES)
}

#[test]
fn each_mistake_shows() {
    for fault in Fault::ALL {
        let differs = (0..60).any(|seed| {
            let script = script(seed, 300, 8 + 24 * (seed as u32 % 3));
            played(None, 64, &script) != played(Some(*fault), 64, &script)
        });
        assert!(differs, "{fault:?}");
    }
}

#[test]
fn a_short_script_is_played_alike_in_a_larger_memory() {
    for seed in 0..8 {
        let script = script(seed, 900, 200);
        let few = played(None, 1000, &script);
        let drained = few.logs[0].iter().filter(|event| matches!(event, Event::Drained { .. })).count();
        assert!(drained > 0);
        assert_eq!(few, played(None, 1100, &script));
        assert_eq!(few, played(None, 4096, &script));
    }
}

#[test]
fn loops_agree() {
    let mut board = Board::new(64, &DEVICES, CAPACITIES).unwrap();
    for seed in 0..20 {
        let script = script(seed, 1000, 30);
        let mut recorder = Recorder::new(Plain::<plain::Sound>::new(board.frames()));
        let transcript = play(&mut recorder, &mut board, script.iter().copied());
        let asks = board.asks();
        assert_eq!(transcript, played(None, 64, &script));

        let mut replay = recorder.replay();
        assert_eq!(play(&mut replay, &mut board, script.iter().copied()), transcript);
        assert_eq!(board.asks(), asks);

        let mut outcomes = vec![Outcome::Over; script.len()];
        board.reset();
        run(&mut Plain::<plain::Sound>::new(64), &mut board, &script, &mut outcomes);
        assert_eq!(board.log(), transcript.logs[0]);
        for (told, slot) in transcript.outcomes.iter().zip(&outcomes) {
            assert_eq!(told.unwrap_or(Outcome::Over), *slot);
        }
    }
}
