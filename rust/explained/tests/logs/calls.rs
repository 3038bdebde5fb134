//! What may come during a call, and in which order.

use crate::notation::{breaks, explained, sides};
use explained::Reason;

const OPEN: &str = "1 get 5: done; 1 open 0: done";
const LENT: &str = "1 get 5: done; 1 open 0: done; 1 lend 5 0 700 w: done";

#[test]
fn one_call_at_a_time() {
    sides("1 asks get 5", "1 told get 5 done", "2 asks get 5", Reason::AskedInCall);
    sides("1 asks get 5", "1 told get 5 done", "2 told get 5 done", Reason::ToldAnother);
    sides("1 asks get 5", "1 told get 5 done", "1 told get 6 done", Reason::ToldAnother);
    sides("1 get 5: done", "1 get 6: done", "1 told get 5 done", Reason::ToldUnasked);
    breaks(Reason::NoSuchProgram, "32 asks get 5");
    explained("1 asks get 5; miss 0 0 r");
}

#[test]
fn programs_rest_during_a_call() {
    sides("1 get 5: done; 2 asks get 5", "2 told get 5 done; 1 store 5 0 = 1", "1 store 5 0 = 1", Reason::ProgramInCall);
    sides("1 get 5: done; 2 asks get 5", "2 told get 5 done; 1 load 5 0 = 0", "1 load 5 0 = 0", Reason::ProgramInCall);
    sides("2 asks get 5", "2 told get 5 done; 1 fault 5", "1 fault 5", Reason::ProgramInCall);
    let shown = "1 open 0: done; 1 regs 0 9: done; 2 asks get 5";
    sides(shown, "2 told get 5 done; 1 poke 9 0", "1 poke 9 0", Reason::ProgramInCall);
}

#[test]
fn a_page_is_lent_at_one_moment() {
    let asked = format!("{OPEN}; 1 asks lend 5 0 700 w");
    sides(&asked, "miss 0 700 r; took 0 700 0 = 0 in 9", "took 0 700 0 = 0 in 9; miss 0 700 r", Reason::MissedLent);
    sides(&asked, "miss 0 700 w; put 0 700 0 = 1 in 9", "put 0 700 0 = 1 in 9; miss 0 700 w", Reason::MissedLent);
    sides(&asked, "miss 0 700 r; miss 0 700 r; 1 told lend 5 0 700 w done", "took 0 701 0 = 0 in 9", Reason::ReadNotLent);
    let told = "put 0 700 0 = 1 in 9; 1 told lend 5 0 700 w done; 1 load 5 0 = 1";
    sides(&asked, told, "put 0 700 0 = 1 in 9; 1 told lend 5 0 700 w no 7", Reason::RefusedInVain { told: 7 });
    sides(&asked, "1 told lend 5 0 700 w done; took 0 700 0 = 0 in 9", "1 told lend 5 0 700 w done; miss 0 700 r", Reason::MissedLent);
    let read = format!("{OPEN}; 1 asks lend 5 0 700 r");
    sides(&read, "took 0 700 0 = 0 in 9; miss 0 700 w", "took 0 700 0 = 0 in 9; miss 0 700 r", Reason::MissedLent);
    sides(&read, "took 0 700 0 = 0 in 9", "put 0 700 0 = 0 in 9", Reason::WroteReadOnly);
}

#[test]
fn a_refused_lending_lends_nothing() {
    let taken = format!("{LENT}; 1 get 6: done; 1 asks lend 6 0 700 r");
    sides(&taken, "took 0 700 0 = 0 in 9; 1 told lend 6 0 700 r no 3", "miss 0 700 r", Reason::MissedLent);
    let foreign = format!("{OPEN}; 2 get 6: done; 2 asks lend 6 0 700 r");
    sides(&foreign, "miss 0 700 r; 2 told lend 6 0 700 r no 5", "took 0 700 0 = 0 in 9", Reason::ReadNotLent);
}

#[test]
fn what_comes_home_may_leave_before() {
    let recall = format!("{LENT}; 1 asks recall 5");
    sides(&recall, "miss 0 700 r; took 0 700 0 = 0 in 9; miss 0 700 w; drain 0 yes", "took 0 701 0 = 0 in 9", Reason::ReadNotLent);
    let close = format!("{LENT}; 1 asks close 0");
    sides(&close, "miss 0 700 r; put 0 700 0 = 1 in 9; miss 0 700 w; drain 0 no", "put 1 700 0 = 1 in 9", Reason::WroteNotLent);
    let end = format!("{LENT}; 0 asks end 1");
    sides(&end, "miss 0 700 r; put 0 700 0 = 1 in 9; miss 0 700 w; drain 0 yes", "put 0 700 0 = 1 in 0", Reason::ReachedKeepers);
}

#[test]
fn what_stays_lent_is_not_missed() {
    let two = format!("{LENT}; 1 get 6: done; 1 lend 6 0 701 w: done; 1 asks recall 5");
    sides(&two, "miss 0 700 r", "miss 0 701 r", Reason::MissedLent);
    let other = format!("{LENT}; 1 open 1: done; 1 asks close 1");
    sides(&other, "miss 1 700 r", "miss 0 700 r", Reason::MissedLent);
    let ended = format!("{LENT}; 2 open 3: done; 0 asks end 2");
    sides(&ended, "miss 3 700 r", "miss 0 700 r", Reason::MissedLent);
    let refused = format!("{LENT}; 2 asks close 0");
    sides(&refused, "took 0 700 0 = 0 in 9; 2 told close 0 no 5", "miss 0 700 r", Reason::MissedLent);
}

#[test]
fn later_leaves_them_leaving() {
    let close = format!("{LENT}; 1 close 0: drain 0 no, later");
    sides(
        &close,
        "miss 0 700 r; put 0 700 0 = 1 in 9",
        "put 0 700 0 = 1 in 9; took 0 700 0 = 0 in 9",
        Reason::WrongWord { found: 0, last: 1 },
    );
    let end = format!("{LENT}; 1 open 1: done; 0 end 1: drain 0 yes, drain 1 no, later");
    sides(&end, "1 load 5 0 = 0; miss 0 700 r", "took 0 700 0 = 0 in 9", Reason::ReadNotLent);
    let other = format!("{LENT}; 1 open 1: done; 0 end 1: drain 0 no, drain 1 yes, later");
    sides(&other, "1 load 5 0 = 0; miss 0 700 r; took 0 700 0 = 0 in 9", "1 fault 5", Reason::FaultedAtPage);
}
