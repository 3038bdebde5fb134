//! What programs find at their places.

use crate::notation::{breaks, explained, sides};
use explained::Reason;

const REGS: &str = "1 open 0: done; 1 regs 0 9: done; 1 get 5: done";

#[test]
fn loads_and_stores() {
    sides("1 get 5: done", "1 load 5 3 = 0", "1 load 5 3 = 7", Reason::NotNoughts { found: 7 });
    sides("1 get 5: done; 1 store 5 3 = 7", "1 load 5 3 = 7", "1 load 5 3 = 0", Reason::WrongWord { found: 0, last: 7 });
    sides("1 get 5: done; 1 store 5 3 = 7", "1 load 5 4 = 0", "1 load 5 4 = 7", Reason::NotNoughts { found: 7 });
    sides("1 get 5: done", "1 load 5 0 = 0", "1 load 6 0 = 0", Reason::NoPageThere);
    sides("1 get 5: done", "1 store 5 0 = 1", "2 store 5 0 = 1", Reason::NoPageThere);
    sides(REGS, "1 load 5 0 = 0", "1 load 9 0 = 0", Reason::RegistersThere);
    sides(REGS, "1 store 5 0 = 1", "1 store 9 0 = 1", Reason::RegistersThere);
    sides("1 get 5: done", "1 store 5 511 = 1", "1 store 5 512 = 1", Reason::NoSuchWord);
}

#[test]
fn a_page_is_noughts_again() {
    let freed = "1 get 5: done; 1 store 5 0 = 7; 1 free 5: done; 2 get 6: done";
    sides(freed, "2 load 6 0 = 0", "2 load 6 0 = 7", Reason::NotNoughts { found: 7 });
    let ended = "1 get 5: done; 1 store 5 0 = 7; 0 end 1: done; 1 get 5: done";
    sides(ended, "1 load 5 0 = 0", "1 load 5 0 = 7", Reason::NotNoughts { found: 7 });
}

#[test]
fn words_go_with_the_page() {
    let given = "1 get 5: done; 1 store 5 0 = 7; 1 give 5 2 8: done";
    sides(given, "2 load 8 0 = 7", "2 load 8 0 = 0", Reason::WrongWord { found: 0, last: 7 });
    sides(given, "1 fault 5", "1 load 5 0 = 7", Reason::NoPageThere);
}

#[test]
fn faults() {
    sides(REGS, "1 fault 6", "1 fault 5", Reason::FaultedAtPage);
    sides(REGS, "1 fault 6", "1 fault 9", Reason::FaultedAtRegisters);
    sides("1 get 5: done; 1 free 5: done", "1 fault 5", "1 load 5 0 = 0", Reason::NoPageThere);
    sides("1 get 5: done; 0 end 1: done", "1 fault 5", "1 store 5 0 = 0", Reason::NoPageThere);
    breaks(Reason::NoSuchPlace, "1 fault 1024");
    breaks(Reason::NoSuchProgram, "32 fault 0");
    explained("31 fault 1023");
}

#[test]
fn pokes() {
    sides(REGS, "1 poke 9 0", "1 poke 9 1", Reason::PokedAnother { shown: 0 });
    sides(REGS, "1 poke 9 0", "1 poke 5 0", Reason::PokedAtPage);
    sides(REGS, "1 poke 9 0", "1 poke 8 0", Reason::PokedNotShown);
    sides(REGS, "1 poke 9 0", "2 poke 9 0", Reason::PokedNotOpen);
    sides(REGS, "1 poke 9 0", "1 poke 9 4", Reason::NoSuchDevice);
}

#[test]
fn registers_go_with_the_device() {
    let closed = format!("{REGS}; 1 close 0: drain 0 yes, done");
    sides(&closed, "1 fault 9", "1 poke 9 0", Reason::PokedNotOpen);
    let closing = format!("{REGS}; 1 regs 0 10: done; 1 close 0: drain 0 no, later");
    sides(&closing, "1 fault 10", "1 poke 10 0", Reason::PokedNotOpen);
    let ended = format!("{REGS}; 0 end 1: drain 0 no, later");
    sides(&ended, "1 fault 9", "1 poke 9 0", Reason::PokedNotOpen);
    let reopened = format!("{closed}; 1 open 0: done");
    sides(&reopened, "1 fault 9", "1 poke 9 0", Reason::PokedNotShown);
    let other = format!("{REGS}; 1 open 1: done; 1 regs 1 10: done; 1 close 0: drain 0 yes, done");
    sides(&other, "1 poke 10 1", "1 poke 9 0", Reason::PokedNotOpen);
}
