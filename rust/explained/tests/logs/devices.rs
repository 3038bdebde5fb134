//! What devices reach and miss.

use crate::notation::{breaks, explained, sides};
use explained::Reason;

const LENT: &str = "1 get 5: done; 1 open 0: done; 1 lend 5 0 700 w: done";
const READ: &str = "1 get 5: done; 1 open 0: done; 1 lend 5 0 700 r: done";

#[test]
fn reached_is_lent() {
    sides(LENT, "took 0 700 0 = 0 in 9", "took 0 701 0 = 0 in 9", Reason::ReadNotLent);
    sides(LENT, "put 0 700 0 = 1 in 9", "put 1 700 0 = 1 in 9", Reason::WroteNotLent);
    sides(READ, "took 0 700 0 = 0 in 9", "put 0 700 0 = 1 in 9", Reason::WroteReadOnly);
    breaks(Reason::ReadNotLent, "took 0 0 0 = 0 in 1");
    breaks(Reason::WroteNotLent, "1 get 5: done; 1 open 0: done; put 0 700 0 = 0 in 1");
}

#[test]
fn missed_is_not_lent() {
    sides(LENT, "miss 0 701 r", "miss 0 700 r", Reason::MissedLent);
    sides(LENT, "miss 1 700 w", "miss 0 700 w", Reason::MissedLent);
    sides(READ, "miss 0 700 w", "miss 0 700 r", Reason::MissedLent);
    explained("miss 0 700 r; miss 3 262143 w");
}

#[test]
fn words_that_devices_read_and_write() {
    sides(LENT, "took 0 700 0 = 0 in 9", "took 0 700 0 = 5 in 9", Reason::NotNoughts { found: 5 });
    let stored = format!("{LENT}; 1 store 5 0 = 7");
    sides(&stored, "took 0 700 0 = 7 in 9", "took 0 700 0 = 0 in 9", Reason::WrongWord { found: 0, last: 7 });
    let put = format!("{LENT}; put 0 700 0 = 8 in 9");
    sides(&put, "1 load 5 0 = 8", "1 load 5 0 = 0", Reason::WrongWord { found: 0, last: 8 });
    let both = format!("{put}; 1 store 5 0 = 3");
    sides(&both, "took 0 700 0 = 3 in 9", "took 0 700 0 = 8 in 9", Reason::WrongWord { found: 8, last: 3 });
}

#[test]
fn what_there_is() {
    sides(LENT, "took 0 700 511 = 0 in 9", "took 0 700 512 = 0 in 9", Reason::NoSuchWord);
    sides(LENT, "miss 3 0 r", "miss 4 0 r", Reason::NoSuchDevice);
    sides(LENT, "miss 0 262143 r", "miss 0 262144 r", Reason::NoSuchPage);
    sides(LENT, "put 0 700 0 = 1 in 63", "put 0 700 0 = 1 in 64", Reason::NoSuchFrame);
}

#[test]
fn leaving_is_both() {
    let leaving = format!("{LENT}; put 0 700 0 = 1 in 9; 1 recall 5: drain 0 no, later");
    sides(&leaving, "put 0 700 0 = 2 in 9; 1 load 5 0 = 2", "put 0 701 0 = 2 in 9", Reason::WroteNotLent);
    sides(&leaving, "miss 0 700 w", "took 0 700 0 = 1 in 8", Reason::AnotherFrame { first: 9 });
    let read = format!("{READ}; 1 recall 5: drain 0 no, later");
    sides(&read, "miss 0 700 r; took 0 700 0 = 0 in 9; miss 0 700 r", "put 0 700 0 = 2 in 9", Reason::WroteReadOnly);
}

#[test]
fn home_is_gone() {
    let home = format!("{LENT}; put 0 700 0 = 1 in 9; 1 recall 5: drain 0 yes, done");
    sides(&home, "miss 0 700 w", "put 0 700 0 = 2 in 9", Reason::WroteNotLent);
    let again = format!("{home}; 1 lend 5 0 3 r: done");
    sides(&again, "took 0 3 0 = 1 in 9", "took 0 700 0 = 1 in 9", Reason::ReadNotLent);
    let closed = format!("{LENT}; 1 close 0: drain 0 yes, done");
    sides(&closed, "miss 0 700 r", "took 0 700 0 = 0 in 9", Reason::ReadNotLent);
    let ended = format!("{LENT}; 0 end 1: drain 0 yes, done");
    sides(&ended, "miss 0 700 r", "took 0 700 0 = 0 in 9", Reason::ReadNotLent);
}

#[test]
fn a_device_keeps_what_another_loses() {
    let two = format!("{LENT}; 1 get 6: done; 1 open 1: done; 1 lend 6 1 700 r: done; 1 close 0: drain 0 no, later");
    sides(&two, "miss 0 700 r", "miss 1 700 r", Reason::MissedLent);
    sides(&two, "took 1 700 0 = 0 in 3; took 0 700 0 = 0 in 9", "put 1 700 0 = 0 in 3", Reason::WroteReadOnly);
}
