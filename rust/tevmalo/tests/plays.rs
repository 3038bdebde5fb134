//! The library plays the stored scripts as `dome` does, and refuses what is out of range.

use protocol::{Device, Event, Line, Outcome};
use tevmalo::{Machine, Prepared, Refusal};

/// The devices that `dome` has.
const DEVICES: [Device; 4] =
    [Device { group: 0, driver: 1 }, Device { group: 0, driver: 1 }, Device { group: 1, driver: 2 }, Device { group: 2, driver: 31 }];

fn printed(script: &str) -> Vec<String> {
    let mut machine = Machine::new(64, &DEVICES, 50_000).expect("64 frames");
    let transcript = machine.play(script.as_bytes()).expect("in range");
    transcript.outcomes.iter().flatten().map(Outcome::to_string).collect()
}

#[test]
fn first_night() {
    let script = include_str!("../../../scripts/first-night.txt");
    let night = [
        "done",
        "done",
        "done",
        "put",
        "load 4242",
        "done",
        "done",
        "load 0",
        "done",
        "put",
        "load 656",
        "miss",
        "done",
        "miss",
        "load 4242",
        "done",
        "miss",
        "done",
        "done",
    ];
    assert_eq!(printed(script), night);
}

#[test]
fn what_dome_is_run_with_in_the_gate() {
    let script = include_str!("../../../crates/dome/stdin");
    let wanted: Vec<&str> = include_str!("../../../crates/dome/stdout").lines().collect();
    assert_eq!(printed(script), wanted);
}

#[test]
fn bad_lines_are_counted_over_machines() {
    assert_eq!(printed("new\nno 1\nx\n\nnew\nnew\ny"), ["line 3?", "line 4?", "line 7?"]);
}

#[test]
fn each_machine_has_its_log() {
    let mut machine = Machine::new(64, &DEVICES, 4096).expect("64 frames");
    let transcript = machine.play(b"1 load 5 0\nnew\n2 load 6 0\n2 load 7 0\n").expect("in range");
    let faults = |who, v| Event::Faulted { who, v };
    assert_eq!(transcript.logs, [vec![faults(1, 5)], vec![faults(2, 6), faults(2, 7)]]);
}

#[test]
fn an_empty_script() {
    let mut machine = Machine::new(64, &[], 4096).expect("64 frames");
    let transcript = machine.play(b"").expect("in range");
    assert!(transcript.outcomes.is_empty());
    assert_eq!(transcript.logs, [vec![]]);
}

#[test]
fn the_largest_machine_that_there_is() {
    let devices = [Device { group: 31, driver: 31 }; 32];
    let mut machine = Machine::new(65_536, &devices, 2050).expect("65,536 frames");
    let transcript = machine.play(b"31 open 31\n").expect("in range");
    assert_eq!(transcript.outcomes, [Some(Outcome::Done)]);
}

#[test]
fn what_is_out_of_range_is_refused() {
    let refused = |frames, devices: &[Device], events| match Machine::new(frames, devices, events) {
        Ok(mut machine) => machine.play(b"0 get 1\n").err(),
        Err(e) => Some(e),
    };
    let device = |group, driver| Device { group, driver };
    assert_eq!(refused(64, &[device(31, 31); 32], 2050), None);
    assert_eq!(refused(63, &[], 2050), Some(Refusal::Frames));
    assert_eq!(refused(65_537, &[], 2050), Some(Refusal::Frames));
    assert_eq!(refused(64, &[device(0, 0); 33], 2050), Some(Refusal::Devices));
    assert_eq!(refused(64, &[device(0, 0), device(32, 0)], 2050), Some(Refusal::Numbers));
    assert_eq!(refused(64, &[device(0, 32)], 2050), Some(Refusal::Numbers));
    assert_eq!(refused(64, &[], 2049), Some(Refusal::Log));
}

#[test]
fn rows_play_as_text_does() {
    let script = include_str!("../../../crates/dome/stdin");
    for life in script.split("\nnew\n") {
        let lines: Vec<Line> = life.lines().filter_map(|line| Line::parse(line.as_bytes())).collect();
        let text: String = lines.iter().map(|line| format!("{line}\n")).collect();
        let mut machine = Machine::new(64, &DEVICES, 50_000).expect("64 frames");
        let mut rows = Prepared::new(&lines);
        assert_eq!(machine.run(&mut rows), Ok(lines.len()));
        assert_eq!(rows.outcomes().collect::<Vec<_>>(), machine.play(text.as_bytes()).expect("in range").outcomes);
    }
}
