//! A page is one frame for as long as it is somebody's, and no two are one frame at one time.

use crate::notation::{after, breaks, breaks_on, explained, log, sides, small};
use crate::reference::Reference;
use explained::Reason;

/// Two pages that are lent at 1 and 2, and one that is home.
const THREE: &str =
    "1 get 5: done; 1 get 6: done; 1 get 7: done; 1 open 0: done; 1 lend 5 0 1 w: done; 1 lend 6 0 2 w: done; took 0 1 0 = 0 in 9";

#[test]
fn one_frame_for_a_page() {
    sides(THREE, "put 0 1 0 = 1 in 9", "put 0 1 0 = 1 in 8", Reason::AnotherFrame { first: 9 });
    let again = format!("{THREE}; 1 recall 5: drain 0 yes, done; 1 lend 5 0 3 r: done");
    sides(&again, "took 0 3 0 = 0 in 9", "took 0 3 0 = 0 in 8", Reason::AnotherFrame { first: 9 });
    let given = format!("{THREE}; 1 recall 5: drain 0 yes, done; 1 give 5 2 5: done; 2 open 3: done; 2 lend 5 3 1 r: done");
    sides(&given, "took 3 1 0 = 0 in 9", "took 3 1 0 = 0 in 8", Reason::AnotherFrame { first: 9 });
}

#[test]
fn one_page_for_a_frame() {
    sides(THREE, "took 0 2 0 = 0 in 8", "took 0 2 0 = 0 in 9", Reason::FrameOfTwo);
    sides(THREE, "took 0 2 0 = 0 in 1", "took 0 2 0 = 0 in 0", Reason::ReachedKeepers);
    let freed = format!("{THREE}; 1 recall 5: drain 0 yes, done; 1 free 5: done");
    breaks(Reason::FrameOfTwo, &format!("{freed}; took 0 2 0 = 0 in 9"));
    explained(&format!("{freed}; 1 get 5: done; 1 lend 5 0 1 r: done; took 0 1 0 = 0 in 9"));
    breaks(Reason::FrameOfTwo, &format!("{freed}; 1 lend 7 0 1 r: done; took 0 1 0 = 0 in 9"));
}

#[test]
fn frames_of_an_ended_program() {
    let ended = format!("2 get 1: done; 2 open 3: done; {THREE}; 0 end 1: drain 0 yes, done");
    explained(&format!("{ended}; 2 get 2: done; 2 lend 2 3 1 r: done; took 3 1 0 = 0 in 9"));
    breaks(Reason::FrameOfTwo, &format!("{ended}; 2 lend 1 3 1 r: done; took 3 1 0 = 0 in 9"));
}

#[test]
fn a_call_that_made_it_idle_and_one_that_got_it() {
    let before = "1 open 0: done; 1 get 5: done; 1 lend 5 0 1 w: done; put 0 1 0 = 7 in 9; 1 recall 5: drain 0 yes, done";
    let reused = format!("{before}; 1 free 5: done; 1 get 5: done; 1 lend 5 0 1 w: done");
    sides(&reused, "took 0 1 0 = 0 in 9", "took 0 1 0 = 7 in 9", Reason::NotNoughts { found: 7 });
    breaks(Reason::FrameOfTwo, &format!("{before}; 1 get 6: done; 1 free 5: done; 1 lend 6 0 1 w: done; took 0 1 0 = 0 in 9"));
}

#[test]
fn a_frame_that_there_is() {
    let lent = "1 open 0: done; 1 get 5: done; 1 lend 5 0 1 w: done";
    breaks_on(&small(5), Reason::NoSuchFrame, &format!("{lent}; took 0 1 0 = 0 in 5"));
    let again = "1 recall 5: drain 0 yes, done; 1 free 5: done; 1 get 5: done; 1 lend 5 0 1 w: done";
    breaks_on(&small(5), Reason::ReachedKeepers, &format!("{lent}; took 0 1 0 = 0 in 4; {again}; took 0 1 0 = 0 in 0"));
}

/// Where more is accepted: the tables have all frames but 1, so the second page must be frame 1 too; but nobody has named the tables.
#[test]
fn what_was_not_named_stays_open() {
    let full = "1 open 0: done; 1 get 5: done; 1 lend 5 0 1 w: done; took 0 1 0 = 0 in 1; 1 recall 5: drain 0 yes, done; 1 free 5: done";
    let text = format!("{full}; 1 get 5: done; 1 lend 5 0 1 w: done; took 0 1 0 = 0 in 2");
    after(&small(4), &text);
    let mut reference = Reference::new(&small(4));
    let events = log(&text);
    let right = events.iter().take_while(|event| reference.event(event)).count();
    assert_eq!(right, events.len() - 1);
}
