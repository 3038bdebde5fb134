//! Done and later.

use crate::notation::sides;
use explained::Reason;

const LENT: &str = "1 get 5: done; 1 open 0: done; 1 lend 5 0 700 w: done";
const TWO: &str = "1 get 5: done; 1 open 0: done; 1 lend 5 0 700 w: done; 1 open 1: done";

#[test]
fn done_after_a_yes() {
    sides(LENT, "1 recall 5: drain 0 yes, done", "1 recall 5: done", Reason::DoneUnasked { d: 0 });
    sides(LENT, "1 close 0: drain 0 yes, done", "1 close 0: drain 0 no, done", Reason::DoneAfterNo { d: 0 });
    sides(LENT, "1 recall 5: drain 0 yes, done", "1 recall 5: drain 0 no, done", Reason::DoneAfterNo { d: 0 });
    sides(TWO, "0 end 1: drain 0 yes, drain 1 yes, done", "0 end 1: drain 0 yes, drain 1 no, done", Reason::DoneAfterNo { d: 1 });
    sides(TWO, "0 end 1: drain 1 yes, drain 0 yes, done", "0 end 1: drain 1 yes, done", Reason::DoneUnasked { d: 0 });
    sides("1 get 5: done", "0 end 1: done", "0 end 1: later", Reason::LaterInVain);
}

#[test]
fn a_yes_of_an_earlier_call_is_no_yes() {
    let before = "1 get 6: done; 1 open 0: done; 1 lend 6 0 1 r: done; 1 recall 6: drain 0 yes, done; 1 lend 6 0 700 w: done";
    sides(before, "1 recall 6: drain 0 yes, done", "1 recall 6: done", Reason::DoneUnasked { d: 0 });
    let ending = format!("{TWO}; 0 end 1: drain 0 no, drain 1 yes, later");
    sides(&ending, "0 end 1: drain 0 yes, done", "0 end 1: done", Reason::DoneUnasked { d: 0 });
}

#[test]
fn later_after_a_no() {
    sides(LENT, "1 recall 5: drain 0 no, later", "1 recall 5: later", Reason::LaterUnasked { d: 0 });
    sides(LENT, "1 recall 5: drain 0 no, later", "1 recall 5: drain 0 yes, later", Reason::LaterAfterYes);
    sides(LENT, "1 close 0: drain 0 no, later", "1 close 0: drain 0 yes, later", Reason::LaterAfterYes);
    sides(TWO, "0 end 1: drain 0 no, drain 1 yes, later", "0 end 1: drain 0 no, later", Reason::LaterUnasked { d: 1 });
    sides(TWO, "0 end 1: drain 0 no, drain 1 no, later", "0 end 1: drain 0 yes, drain 1 yes, later", Reason::LaterAfterYes);
    let leaving = format!("{LENT}; 1 recall 5: drain 0 no, later");
    sides(&leaving, "1 recall 5: drain 0 no, later", "1 recall 5: later", Reason::LaterUnasked { d: 0 });
}

#[test]
fn what_waits_for_nothing_is_never_later() {
    for call in ["1 get 6", "1 free 5", "1 give 5 2 5", "1 open 0", "1 regs 1 9", "1 lend 5 1 3 w"] {
        sides("1 get 5: done; 1 open 1: done", &format!("{call}: done"), &format!("{call}: later"), Reason::LaterInVain);
    }
}

#[test]
fn refused_and_not() {
    sides("1 get 5: done", "1 get 5: no 3", "1 get 5: done", Reason::DoneNotRefused { right: 3 });
    sides("1 get 5: done", "1 get 5: no 3", "1 get 5: no 7", Reason::WrongNumber { told: 7, right: 3 });
    sides("1 get 5: done", "1 free 5: done", "1 free 5: no 4", Reason::RefusedInVain { told: 4 });
    sides("1 get 5: done", "1 recall 5: no 4", "1 recall 5: later", Reason::LaterNotRefused { right: 4 });
    sides("1 get 5: done", "1 get 6: done", "1 get 6: no 9", Reason::RefusedInVain { told: 9 });
}

/// After a later, end has closed each device by itself.
#[test]
fn end_closes_each_by_itself() {
    let ended = format!("{TWO}; 0 end 1: drain 0 no, drain 1 yes, later");
    sides(&ended, "1 open 1: done", "1 open 1: no 6", Reason::RefusedInVain { told: 6 });
    sides(&ended, "1 open 0: no 6", "1 open 0: done", Reason::DoneNotRefused { right: 6 });
    sides(&ended, "1 load 5 0 = 0", "1 fault 5", Reason::FaultedAtPage);
    sides(&ended, "1 recall 5: drain 0 yes, done", "1 free 5: done", Reason::DoneNotRefused { right: 4 });
    sides(&ended, "1 close 1: no 5", "1 asks close 1; drain 1 yes", Reason::DrainedInVain);
    sides(&ended, "0 end 1: drain 0 yes, done; 1 fault 5", "0 asks end 1; drain 1 yes", Reason::DrainedInVain);
}

/// After a later, a device is closing: nothing is lent to it or shown of it any more, and it is not shut.
#[test]
fn closing() {
    let closing = format!("{LENT}; 1 get 6: done; 1 close 0: drain 0 no, later");
    sides(&closing, "1 lend 6 0 3 w: no 5", "1 lend 6 0 3 w: done", Reason::DoneNotRefused { right: 5 });
    sides(&closing, "1 regs 0 9: no 5", "1 regs 0 9: done", Reason::DoneNotRefused { right: 5 });
    sides(&closing, "1 open 0: no 6", "1 open 0: done", Reason::DoneNotRefused { right: 6 });
    sides(&closing, "2 open 2: no 6", "2 open 2: done", Reason::DoneNotRefused { right: 6 });
    sides(&closing, "1 close 0: drain 0 yes, done; 2 open 2: done", "1 close 0: done", Reason::DoneUnasked { d: 0 });
    sides(&closing, "1 recall 5: drain 0 yes, done; 1 free 5: done", "1 free 5: done", Reason::DoneNotRefused { right: 4 });
}
