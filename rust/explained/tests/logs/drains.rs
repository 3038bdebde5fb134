//! Which drains a call asks.

use crate::notation::{breaks, sides};
use explained::Reason;

const LENT: &str = "1 get 5: done; 1 open 0: done; 1 lend 5 0 700 w: done";

#[test]
fn within_a_call() {
    breaks(Reason::DrainedBetweenCalls, "drain 0 yes");
    sides(LENT, "1 recall 5: drain 0 yes, done", "drain 0 no", Reason::DrainedBetweenCalls);
    breaks(Reason::NoSuchDevice, "1 asks get 5; drain 4 yes");
}

#[test]
fn of_what_the_call_waits_for() {
    sides(&format!("{LENT}; 1 asks recall 5"), "drain 0 yes", "drain 1 yes", Reason::DrainedInVain);
    sides(&format!("{LENT}; 1 open 1: done; 1 asks close 1"), "drain 1 yes", "drain 0 yes", Reason::DrainedInVain);
    sides(&format!("{LENT}; 2 open 3: done; 0 asks end 2"), "drain 3 yes", "drain 0 yes", Reason::DrainedInVain);
    sides("1 get 5: done; 1 open 0: done; 1 asks lend 5 0 700 w", "1 told lend 5 0 700 w done", "drain 0 yes", Reason::DrainedInVain);
    sides("1 get 5: done; 1 asks recall 5", "1 told recall 5 no 4", "drain 0 yes", Reason::DrainedInVain);
    sides(&format!("{LENT}; 2 asks close 0"), "2 told close 0 no 5", "drain 0 yes", Reason::DrainedInVain);
}

#[test]
fn once() {
    sides(&format!("{LENT}; 1 asks recall 5; drain 0 no"), "1 told recall 5 later", "drain 0 yes", Reason::DrainedTwice);
    sides(&format!("{LENT}; 1 asks close 0; drain 0 yes"), "1 told close 0 done", "drain 0 yes", Reason::DrainedTwice);
    sides(&format!("{LENT}; 1 open 1: done; 0 asks end 1; drain 0 no"), "drain 1 yes", "drain 0 no", Reason::DrainedTwice);
    sides(&format!("{LENT}; 1 recall 5: drain 0 no, later; 1 asks recall 5"), "drain 0 no", "drain 1 no", Reason::DrainedInVain);
}
