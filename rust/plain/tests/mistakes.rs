//! Each mistake can be seen: a script, and what comes of its last line without it and with it.

use machine::{Capacities, lines_of};
use plain::{Fault, play_with};
use protocol::{Answer, Call, Device, Event, Outcome, Transcript};

/// Program 1 drives devices 0 and 3, program 2 device 1, of device 0's group, and device 2.
const DEVICES: [Device; 4] =
    [Device { group: 0, driver: 1 }, Device { group: 0, driver: 2 }, Device { group: 1, driver: 2 }, Device { group: 2, driver: 1 }];

fn transcript(fault: Option<Fault>, script: &str) -> Transcript {
    play_with(fault, 64, &DEVICES, &lines_of(script.as_bytes()), Capacities::of(64, 50_000))
}

fn last(fault: Option<Fault>, script: &str) -> Option<Outcome> {
    *transcript(fault, script).outcomes.last().unwrap()
}

const LENT: &str = "1 get 5\n1 open 0\n1 store 5 0 42\n1 lend 5 0 700 w\n";

/// Behind `before`, the last line comes to `right`, and with the mistake to `wrong`.
#[track_caller]
fn seen(fault: Fault, before: &str, script: &str, right: Outcome, wrong: Outcome) {
    let script = format!("{before}{script}");
    assert_eq!(last(None, &script), Some(right), "{script}");
    assert_eq!(last(Some(fault), &script), Some(wrong), "{fault:?}\n{script}");
}

#[test]
fn what_pages_show() {
    seen(Fault::NotCleared, "", "1 get 5\n1 load 5 0", Outcome::Loaded(0), Outcome::Loaded(1));
    seen(Fault::FreedStillShown, "", "1 get 5\n1 free 5\n1 load 5 0", Outcome::Fault, Outcome::Loaded(0));
    seen(Fault::OldPlaceStillShown, "", "1 get 5\n1 give 5 2 6\n1 load 5 0", Outcome::Fault, Outcome::Loaded(0));
    seen(Fault::RefusalChanges, LENT, "1 free 5\n1 load 5 0", Outcome::Loaded(42), Outcome::Fault);
    let gets: String = (0..64).map(|v| format!("2 get {v}\n")).collect();
    seen(Fault::FrameTwice, "", &gets, Outcome::No(7), Outcome::Done);
}

#[test]
fn what_tables_say() {
    seen(Fault::UpperNotCleared, "", "1 open 0\ndev 0 read 700 0", Outcome::Miss, Outcome::Took(1));
    seen(Fault::LowerNotCleared, LENT, "dev 0 write 701 0 9", Outcome::Miss, Outcome::Put);
    seen(Fault::ReadIsWrite, "1 get 5\n1 open 0\n", "1 lend 5 0 700 r\ndev 0 write 700 0 9", Outcome::Miss, Outcome::Put);
    seen(Fault::WrongFrameEntered, LENT, "dev 0 read 700 0", Outcome::Took(42), Outcome::Took(3));
    seen(Fault::EntryStays, LENT, "1 recall 5\ndev 0 read 700 0", Outcome::Miss, Outcome::Took(42));
    seen(Fault::TopStays, LENT, "1 close 0\ndev 0 read 700 0", Outcome::Miss, Outcome::Took(42));
    seen(Fault::StartedTooSoon, "", "dev 0 read 700 0", Outcome::Miss, Outcome::Took(1));
    seen(Fault::RegistersStay, LENT, "1 regs 0 9\n1 close 0\n1 load 9 0", Outcome::Fault, Outcome::Poked);
    seen(Fault::RegistersStay, LENT, "1 regs 0 9\n0 end 1\n1 load 9 0", Outcome::Fault, Outcome::Poked);
}

#[test]
fn what_drains_say() {
    let kept = "keep 0 700\n1 recall 5\nkept 0 700 write 0 9";
    seen(Fault::HomeUnasked, LENT, kept, Outcome::Miss, Outcome::Put);
    seen(Fault::OtherDeviceAsked, LENT, kept, Outcome::Miss, Outcome::Put);
    seen(Fault::HomeAfterNo, LENT, "no 1\n1 recall 5", Outcome::Later, Outcome::Done);
    seen(Fault::LaterUnasked, LENT, "1 recall 5", Outcome::Done, Outcome::Later);
    seen(Fault::ClosedAfterNo, LENT, "no 1\n1 close 0", Outcome::Later, Outcome::Done);
    seen(Fault::EndedAfterNo, LENT, "no 1\n0 end 1", Outcome::Later, Outcome::Done);
    seen(Fault::EndSkipsClosing, LENT, "no 2\n1 close 0\n0 end 1", Outcome::Later, Outcome::Done);
    let twice = "1 get 6\n1 lend 6 0 701 w\nno 1\n1 recall 5\n1 recall 6\nno 1\n1 recall 5";
    seen(Fault::OldYesCounts, LENT, twice, Outcome::Later, Outcome::Done);
}

#[test]
fn what_is_refused() {
    let again = "no 1\n1 recall 5\n1 get 6\n1 lend 6 0 700 w";
    seen(Fault::LeavingTakenAgain, LENT, again, Outcome::No(3), Outcome::Done);
    seen(Fault::GroupNotAsked, LENT, "2 open 1", Outcome::No(6), Outcome::Done);
    seen(Fault::LentTwice, LENT, "1 lend 5 0 701 w", Outcome::No(4), Outcome::Done);
    seen(Fault::WrongOrderOfReasons, LENT, "1 get 6\n1 give 5 1 6", Outcome::No(3), Outcome::No(4));
    seen(Fault::WrongOrderOfReasons, LENT, "1 get 6\n2 regs 0 6\n1 regs 2 5", Outcome::No(3), Outcome::No(5));
    seen(Fault::WrongOrderOfReasons, LENT, "1 get 6\n1 lend 6 0 701 w\n1 lend 6 0 700 w", Outcome::No(3), Outcome::No(4));
}

/// A frame is written under the number of its former device after its owner was told that it is home.
fn written_at_home(log: &[Event]) -> bool {
    let home = Event::Told { who: 1, call: Call::Recall { v: 5 }, answer: Answer::Done };
    log.iter().skip_while(|event| **event != home).any(|event| matches!(event, Event::Put { .. }))
}

fn recalled(seed: u64) -> String {
    format!("{LENT}seed {seed}\n1 recall 5\n{}", "1 load 5 0\n".repeat(20))
}

#[test]
fn asked_before_cleared() {
    let script = recalled(ASKED_BEFORE_CLEARED);
    assert!(!written_at_home(&transcript(None, &script).logs[0]));
    assert!(written_at_home(&transcript(Some(Fault::AskedBeforeCleared), &script).logs[0]));
}

/// With this seed the IOMMU learns the page anew between the drain and the clearing.
const ASKED_BEFORE_CLEARED: u64 = 420;
