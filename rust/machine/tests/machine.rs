//! The machine by itself, with a keeper that does as it is told.

use machine::{Board, Capacities, Ended, Keeper, Machine, Recorder, Unfit, View, lines_of, play, run};
use protocol::{Answer, Call, Device, Event, Line, Outcome};

const DEVICES: [Device; 2] = [Device { group: 0, driver: 1 }, Device { group: 1, driver: 2 }];

/// The upper table of each device is frame 1, its lower ones frame 2, and each page frame 3.
struct Obedient;

impl Keeper for Obedient {
    fn boot(&mut self, m: &mut impl Machine) {
        for frame in 0..3 {
            (0..512).for_each(|word| m.put(frame, word, 0));
        }
        m.start();
    }

    fn serve(&mut self, m: &mut impl Machine, who: u32, call: Call) -> Answer {
        match call {
            Call::Get { v } => m.show(who, v, 3),
            Call::Free { v } => m.hide(who, v),
            Call::Regs { d, v } => m.show_registers(who, v, d),
            Call::Lend { d, p, writes, .. } => {
                m.put(2, p % 512, 7 + u64::from(writes));
                m.put(1, p / 512, 3);
                m.put(0, d, 2);
            }
            Call::Recall { v: p } => m.put(2, p % 512, 0),
            Call::Close { d } if !m.drain(d) => return Answer::Later,
            Call::Close { .. } => {}
            _ => return Answer::No(9),
        }
        Answer::Done
    }
}

fn board(capacities: Capacities) -> Board {
    Board::new(64, &DEVICES, capacities).unwrap()
}

fn said(script: &str, capacities: Capacities) -> Vec<String> {
    let transcript = play(&mut Obedient, &mut board(capacities), lines_of(script.as_bytes()));
    transcript.outcomes.iter().flatten().map(Outcome::to_string).collect()
}

const LARGE: Capacities = Capacities::of(64, 50_000);

#[test]
fn what_no_machine_can_be_made_of() {
    let unfit = |frames, devices: &[Device], log| Board::new(frames, devices, Capacities::of(1, log)).err();
    assert_eq!(unfit(63, &DEVICES, 2050), Some(Unfit::Frames));
    assert_eq!(unfit(65_537, &DEVICES, 2050), Some(Unfit::Frames));
    assert_eq!(unfit(64, &[DEVICES[0]; 33], 2050), Some(Unfit::Devices));
    assert_eq!(unfit(64, &[Device { group: 32, driver: 0 }], 2050), Some(Unfit::Numbers));
    assert_eq!(unfit(64, &[Device { group: 0, driver: 32 }], 2050), Some(Unfit::Numbers));
    assert_eq!(unfit(64, &DEVICES, 2049), Some(Unfit::Log));
    assert_eq!(unfit(65_536, &[], 2050), None);
}

#[test]
fn places() {
    let script = "1 load 5 0\n1 get 5\n1 load 5 0\n1 store 5 127 9\n1 load 5 127\n1 regs 1 5\n1 load 5 0\n1 free 5\n1 store 5 0 1";
    assert_eq!(said(script, LARGE), ["fault", "done", "load 1", "stored", "load 9", "done", "poked", "done", "fault"]);
    assert_eq!(said("32 load 5 0\n1 load 1024 0\n1 load 5 512\n32 get 5", LARGE), ["no 1"; 4]);
}

#[test]
fn accesses() {
    let script = "dev 1 write 700 0 5\n1 lend 0 1 700 w\ndev 1 write 700 0 5\ndev 1 read 700 0\ndev 1 read 701 0";
    assert_eq!(said(script, LARGE), ["miss", "done", "put", "took 5", "miss"]);
    let script = "1 lend 0 1 700 r\ndev 1 write 700 0 5\ndev 1 read 700 1\nkeep 1 700\nkept 1 700 write 0 5";
    assert_eq!(said(script, LARGE), ["done", "miss", "took 2", "kept", "miss"]);
    assert_eq!(said("dev 2 read 0 0\nkeep 0 262144\nkept 0 0 write 512 1", LARGE), ["no 1"; 3]);
}

#[test]
fn what_is_kept() {
    let kept = "1 lend 0 1 700 w\nkeep 1 700\n1 recall 700\nkept 1 700 write 0 5\nno 1\n1 close 1\nkept 1 700 write 0 6\n";
    let said_of_kept = ["done", "kept", "done", "put", "later", "put"];
    assert_eq!(said(kept, LARGE), said_of_kept);
    let forgotten = format!("{kept}1 close 1\nkept 1 700 write 0 7\nkeep 1 700");
    assert_eq!(said(&forgotten, LARGE)[6..], ["done", "miss", "nothing"]);
}

#[test]
fn lists_are_full() {
    let script = "1 lend 0 1 0 w\n1 lend 0 1 1 w\nkeep 1 0\nkeep 1 1\nkeep 1 0";
    assert_eq!(said(script, Capacities::of(1, 50_000)), ["done", "done", "kept", "nothing", "kept"]);
    assert_eq!(said(script, Capacities::of(0, 50_000))[2..], ["nothing"; 3]);
}

#[test]
fn the_log_is_full() {
    let faults = "1 load 5 0\n".repeat(11);
    let script = format!("{faults}1 get 5\nno 1\nwhat\nnew\n1 load 5 0\n1 get 5");
    let said = said(&script, Capacities::of(1, 2060));
    assert_eq!(said[..11], ["fault"; 11]);
    assert_eq!(said[11..], ["over", "line 14?", "fault", "done"]);
}

#[test]
fn lines_of_a_text() {
    assert_eq!(lines_of(b""), []);
    assert_eq!(lines_of(b"\n"), [None]);
    assert_eq!(lines_of(b"new\n\nnew"), [Some(Line::New), None, Some(Line::New)]);
}

#[test]
fn a_loop_without_text() {
    let lines = [Line::Call { who: 1, call: Call::Get { v: 5 } }, Line::Seed { s: 3 }, Line::Load { who: 1, v: 5, word: 0 }];
    let mut outcomes = [Outcome::Over; 4];
    let mut board = board(LARGE);
    assert_eq!(run(&mut Obedient, &mut board, &lines, &mut outcomes), (3, Ended::Script));
    assert_eq!(outcomes, [Outcome::Done, Outcome::Over, Outcome::Loaded(1), Outcome::Over]);
    assert_eq!(board.asks(), 3 * 512 + 1 + 1);
    assert_eq!(board.view(1, 5), View::Page(3));
    assert_eq!((board.word(0, 0), board.word(4, 511)), (0, 128));
}

#[test]
fn done_again_without_the_keeper() {
    let script = lines_of(b"seed 5\n1 get 5\n1 lend 0 1 700 w\n1 close 1\n1 close 1\n1 close 1\n1 free 5\n1 end 1\n1 load 5 0");
    let mut recorder = Recorder::new(Obedient);
    let mut board = board(LARGE);
    let transcript = play(&mut recorder, &mut board, script.iter().copied());
    let asks = board.asks();
    let mut replay = recorder.replay();
    assert_eq!(replay.asks().len(), 3 + 1 + 8);
    assert_eq!(replay.rounds().map(|round| round.0.len()).collect::<Vec<_>>(), [4, 1, 3, 1, 1, 1, 1, 0]);
    assert_eq!(play(&mut replay, &mut board, script.iter().copied()), transcript);
    assert_eq!(board.asks(), asks);
    board.reset();
    replay.perform(&mut board);
    assert_eq!(board.asks(), asks);
    assert_eq!(board.log(), [Event::Drained { d: 1, said: true }; 3]);
}

/// What a seed brings about is the same each time, and another thing with another seed.
#[test]
fn seeds() {
    let events = |seed: u64| {
        let script = format!("1 lend 0 1 700 w\nseed {seed}\n{}", "1 load 0 0\n".repeat(200));
        play(&mut Obedient, &mut board(LARGE), lines_of(script.as_bytes())).logs.remove(0)
    };
    assert_eq!(events(1), events(1));
    assert_ne!(events(1), events(2));
    assert!((1..9).flat_map(events).any(|event| matches!(event, Event::Put { d: 1, p: 700, frame: 3, .. })));
}
