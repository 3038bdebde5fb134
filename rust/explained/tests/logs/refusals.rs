//! Each call is refused by the first reason that applies, and by no other.

use crate::notation::{after, breaks_on, explained, machine, small};
use explained::Reason;
use protocol::{Answer, Event, Line};

/// After `before`, this call has this answer, and no other refusal and no done.
#[track_caller]
fn refused(before: &str, call: &str, number: u32) {
    let Some(Line::Call { who, call }) = Line::parse(call.as_bytes()) else { panic!("no call: {call}") };
    let told = |n| Event::Told { who, call, answer: n };
    let mut checker = after(&machine(), before);
    checker.event(&Event::Asked { who, call }).expect("any call may be asked");
    for wrong in (0..12).filter(|n| *n != number).map(Answer::No).chain([Answer::Done, Answer::Later]) {
        checker.event(&told(wrong)).expect_err(&format!("{call}: {wrong}"));
    }
    assert_eq!(checker.event(&told(Answer::No(number))), Ok(()), "{call}");
}

const LENT: &str = "1 get 5: done; 1 get 6: done; 1 open 0: done; 1 lend 5 0 700 w: done; 1 regs 0 9: done; 2 get 4: done";

#[test]
fn out_of_range() {
    for call in [
        "1 get 1024",
        "1 free 1024",
        "1 give 1024 2 3",
        "1 give 6 32 3",
        "1 give 6 2 1024",
        "1 open 4",
        "1 close 4",
        "1 regs 4 8",
        "1 regs 0 1024",
        "1 lend 1024 0 3 w",
        "1 lend 6 4 3 w",
        "1 lend 6 0 262144 r",
        "1 recall 1024",
        "0 end 32",
        "1 end 32",
        "1 get 4294967295",
    ] {
        refused(LENT, call, 1);
    }
}

#[test]
fn no_page() {
    for call in ["1 free 7", "1 give 7 2 4", "1 lend 7 0 700 w", "1 recall 7", "1 free 9", "1 recall 9", "2 free 5", "2 recall 5"] {
        refused(LENT, call, 2);
    }
}

#[test]
fn taken() {
    for call in ["1 get 5", "1 get 9", "1 give 6 2 4", "1 give 5 2 4", "1 give 6 1 9", "1 give 6 1 6", "1 regs 0 6", "1 regs 3 9"] {
        refused(LENT, call, 3);
    }
    refused(LENT, "1 lend 6 0 700 r", 3);
    refused(LENT, "1 lend 5 0 700 r", 3);
    refused(LENT, "2 lend 4 0 700 r", 3);
    refused(&format!("{LENT}; 1 recall 5: drain 0 no, later"), "1 lend 6 0 700 r", 3);
}

#[test]
fn not_home_or_home() {
    for call in ["1 free 5", "1 give 5 2 5", "1 lend 5 0 3 w", "1 lend 5 3 3 w", "1 recall 6"] {
        refused(LENT, call, 4);
    }
    refused(&format!("{LENT}; 1 recall 5: drain 0 no, later"), "1 free 5", 4);
    refused(&format!("{LENT}; 1 recall 5: drain 0 yes, done"), "1 recall 5", 4);
}

#[test]
fn not_ones_own() {
    for call in ["1 open 2", "2 open 0", "2 close 0", "1 close 1", "1 regs 1 8", "2 regs 0 8", "1 lend 6 1 3 w", "2 lend 4 0 3 w"] {
        refused(LENT, call, 5);
    }
    refused(&format!("{LENT}; 1 close 0: drain 0 yes, done"), "1 close 0", 5);
}

#[test]
fn held() {
    refused(LENT, "1 open 0", 6);
    refused(LENT, "2 open 2", 6);
    refused(&format!("{LENT}; 1 close 0: drain 0 no, later"), "2 open 2", 6);
    explained(&format!("{LENT}; 1 close 0: drain 0 yes, done; 2 open 2: done; 2 open 3: done; 1 open 1: done"));
}

#[test]
fn only_program_0_ends() {
    refused(LENT, "1 end 1", 8);
    refused(LENT, "1 end 0", 8);
    explained(&format!("{LENT}; 0 end 0: done; 0 end 3: done"));
}

/// Frames are counted exactly: pages, an upper table for each device that is not shut, and a lower one for each 512 pages of it where
/// something was lent.
#[test]
fn full() {
    let full = |text: &str| after(&small(5), text);
    full("1 get 1: done; 1 get 2: done; 1 get 3: done; 1 get 4: done; 1 get 5: no 7; 1 open 0: no 7; 1 free 4: done; 1 get 5: done");
    full(
        "1 get 1: done; 1 get 2: done; 1 open 0: done; 1 lend 1 0 511 w: done; 1 get 3: no 7; 1 lend 2 0 512 w: no 7; 1 lend 2 0 0 r: done",
    );
    let tables = "1 get 1: done; 1 open 0: done; 1 lend 1 0 0 w: done; 1 recall 1: drain 0 yes, done; 1 lend 1 0 512 w: done";
    full(&format!("{tables}; 1 recall 1: drain 0 yes, done; 1 get 2: no 7; 1 close 0: drain 0 no, later; 1 get 2: no 7"));
    full(&format!("{tables}; 1 close 0: drain 0 yes, done; 1 get 2: done; 1 get 3: done; 1 get 4: done; 1 get 5: no 7"));
    full(&format!("{tables}; 0 end 1: drain 0 no, later; 2 get 2: no 7; 0 end 1: drain 0 yes, done; 2 get 2: done"));
    breaks_on(&small(5), Reason::DoneNotRefused { right: 7 }, &format!("{tables}; 1 get 2: done"));
    breaks_on(&small(6), Reason::RefusedInVain { told: 7 }, &format!("{tables}; 1 get 2: no 7"));
    breaks_on(&small(5), Reason::DoneNotRefused { right: 7 }, &format!("{tables}; 1 recall 1: drain 0 yes, done; 1 lend 1 0 1024 w: done"));
    breaks_on(&small(5), Reason::RefusedInVain { told: 7 }, &format!("{tables}; 1 recall 1: drain 0 yes, done; 1 lend 1 0 1023 w: no 7"));
    full(&format!("{tables}; 1 get 1024: no 1; 1 get 1: no 3; 2 open 1: no 5; 2 open 2: no 6; 2 open 3: no 7"));
}
