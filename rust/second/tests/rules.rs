//! The second keeper by the rules.

use protocol::{Device, Outcome};
use second::{Expect, Second, State};

/// Devices 0 and 1 are of one group and of program 1, device 2 is of program 2, device 3 of program 31.
fn keeper() -> Second {
    Second::new(64, &[(0, 1), (0, 1), (1, 2), (2, 31)].map(|(group, driver)| Device { group, driver }))
}

/// What it says by itself, a line for each line.
fn said(script: &str) -> Vec<String> {
    let mut keeper = keeper();
    script.lines().map(|line| keeper.answer(line.as_bytes()).map_or(String::new(), |came| came.to_string())).collect()
}

fn follow(keeper: &mut Second, line: &str, came: Outcome) {
    assert_eq!(keeper.follow(line.as_bytes(), Some(came)), Ok(()), "{line}");
}

fn play(keeper: &mut Second, script: &str) {
    for line in script.lines() {
        keeper.answer(line.as_bytes());
    }
}

#[test]
fn a_night_at_a_telescope() {
    let night = [
        ("1 open 0", "done"),
        ("1 get 5", "done"),
        ("1 lend 5 0 700 w", "done"),
        ("dev 0 write 700 0 4242", "put"),
        ("1 load 5 0", "load 4242"),
        ("2 open 2", "done"),
        ("2 get 5", "done"),
        ("2 load 5 0", "load 0"),
        ("2 lend 5 2 12 w", "done"),
        ("dev 2 write 12 0 656", "put"),
        ("2 load 5 0", "load 656"),
        ("dev 2 write 700 0 1", "miss"),
        ("1 recall 5", "done"),
        ("dev 0 write 700 0 9999", "miss"),
        ("1 load 5 0", "load 4242"),
        ("2 recall 5", "done"),
        ("dev 2 read 12 0", "miss"),
        ("1 close 0", "done"),
        ("2 close 2", "done"),
    ];
    let script: Vec<&str> = night.iter().map(|(line, _)| *line).collect();
    let printed: Vec<&str> = night.iter().map(|(_, printed)| *printed).collect();
    assert_eq!(said(&script.join("\n")), printed);
}

#[test]
fn what_the_unit_keeps_is_written_until_it_is_forgotten() {
    let script = "1 get 5\n1 open 0\n1 lend 5 0 700 w\nkeep 0 700\nno 1\n1 recall 5\nkeep 0 700\nkept 0 700 write 0 88\n1 load 5 0\n\
                  1 recall 5\nkept 0 700 write 0 99\n1 load 5 0";
    let printed = ["done", "done", "done", "kept", "", "later", "nothing", "put", "load 88", "done", "miss", "load 88"];
    assert_eq!(said(script), printed);
}

#[test]
fn devices_of_an_end_are_drained_by_their_numbers() {
    let script = "1 open 0\n1 open 1\nno 1\n0 end 1\n1 close 1\n1 close 0\nnew\n1 load 0 0\nx";
    assert_eq!(said(script), ["done", "done", "", "later", "no 5", "done", "", "fault", "line 9?"]);
}

#[test]
fn the_first_reason_counts() {
    let script = "1 get 5\n1 open 0\n1 lend 5 0 700 w\n1 lend 6 0 700 w\n1 lend 5 2 700 w\n1 lend 5 0 700 w\n1 lend 5 0 262144 w\n\
                  1 give 5 1 5\n1 end 32\n1 end 1\n2 open 0";
    assert_eq!(said(script), ["done", "done", "done", "no 2", "no 4", "no 3", "no 1", "no 3", "no 1", "no 8", "no 5"]);
}

#[test]
fn frames_are_counted() {
    let mut script = String::from("1 open 0\n");
    (0..61).for_each(|v| script += &format!("1 get {v}\n"));
    script += "1 lend 0 0 0 w\n1 get 61\n1 lend 1 0 511 w\n1 lend 2 0 512 w\n1 recall 0\n1 recall 1\n1 get 61\n1 close 0\n1 get 61\n1 get 62\n1 get 63";
    assert_eq!(said(&script)[62..], ["done", "no 7", "done", "no 7", "done", "done", "no 7", "done", "done", "done", "no 7"]);
}

#[test]
fn words_are_unknown_once_a_device_may_have_written() {
    let mut keeper = keeper();
    play(&mut keeper, "1 open 0\n1 get 5\n1 get 6\n1 store 6 0 7\nseed 1\n1 lend 5 0 700 w\n1 lend 6 0 701 r\n1 store 5 1 3");
    assert_eq!(keeper.expect(b"1 load 5 1"), Expect::AnyLoad);
    assert_eq!(keeper.expect(b"dev 0 read 700 1"), Expect::AnyTake);
    assert_eq!(keeper.expect(b"dev 0 read 701 0"), Expect::Exactly(Outcome::Took(7)));
    assert_eq!(keeper.expect(b"kept 0 700 write 0 1"), Expect::OneOf(vec![Outcome::Put, Outcome::Miss]));
    assert_eq!(keeper.expect(b"kept 0 701 write 0 1"), Expect::Exactly(Outcome::Miss));
    assert_eq!(keeper.expect(b"1 recall 5"), Expect::OneOf(vec![Outcome::Done, Outcome::Later]));
    follow(&mut keeper, "1 recall 5", Outcome::Later);
    follow(&mut keeper, "1 recall 5", Outcome::Done);
    assert_eq!(keeper.expect(b"1 load 5 1"), Expect::AnyLoad);
    follow(&mut keeper, "1 load 5 1", Outcome::Loaded(9));
    assert_eq!(keeper.expect(b"1 load 5 1"), Expect::Exactly(Outcome::Loaded(9)));
    assert_eq!(keeper.expect(b"1 load 5 2"), Expect::AnyLoad);
}

#[test]
fn an_end_may_leave_it_open_what_is_shut() {
    let mut keeper = keeper();
    play(&mut keeper, "1 open 0\n1 open 1\n1 get 5\n1 lend 5 0 700 w\nseed 1");
    follow(&mut keeper, "0 end 1", Outcome::Later);
    assert_eq!(keeper.worlds(), 3);
    assert_eq!(keeper.expect(b"1 close 1"), Expect::OneOf(vec![Outcome::Done, Outcome::Later, Outcome::No(5)]));
    assert_eq!(keeper.expect(b"1 free 5"), Expect::OneOf(vec![Outcome::No(4), Outcome::Done]));
    follow(&mut keeper, "1 load 5 0", Outcome::Loaded(3));
    // Another word is found: so a device wrote it, and device 0 is closing.
    assert_eq!(keeper.expect(b"1 load 5 0"), Expect::AnyLoad);
    follow(&mut keeper, "1 load 5 0", Outcome::Loaded(4));
    assert_eq!((keeper.worlds(), keeper.state(0)), (2, State::Closing(1)));
    assert_eq!(keeper.expect(b"1 free 5"), Expect::Exactly(Outcome::No(4)));
    follow(&mut keeper, "1 open 1", Outcome::Done);
    assert_eq!((keeper.worlds(), keeper.state(1)), (1, State::Open(1)));
}

#[test]
fn what_is_told_to_say_no_says_no_with_a_seed_too() {
    let mut keeper = keeper();
    play(&mut keeper, "1 open 0\n1 open 1\nseed 1\nno 1");
    follow(&mut keeper, "0 end 1", Outcome::Later);
    assert_eq!(keeper.state(0), State::Closing(1));
    assert_eq!(keeper.worlds(), 2);
}
