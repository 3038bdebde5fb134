//! What comes of the faults in `docs/FAULTS.md`, in its order: one log for each, whose last event is refused.

use crate::notation::{breaks, breaks_on, small};
use explained::Reason;

const LENT: &str = "1 get 5: done; 1 open 0: done; 1 lend 5 0 700 w: done; put 0 700 0 = 1 in 9";
const READ: &str = "1 get 5: done; 1 open 0: done; 1 lend 5 0 700 r: done; took 0 700 0 = 0 in 9";
const TWO: &str = "1 get 5: done; 1 open 0: done; 1 lend 5 0 700 w: done; put 0 700 0 = 1 in 9; 1 open 1: done";

#[track_caller]
fn fault(before: &str, wrong: &str, reason: Reason) {
    breaks(reason, &format!("{before}; {wrong}"));
}

#[test]
fn pages() {
    // A frame is not cleared at get.
    fault("1 get 5: done; 1 store 5 0 = 7; 1 free 5: done; 2 get 5: done", "2 load 5 0 = 7", Reason::NotNoughts { found: 7 });
    // One word of it is not cleared.
    fault("1 get 5: done; 1 load 5 0 = 0", "1 load 5 511 = 3", Reason::NotNoughts { found: 3 });
    // A page that was got is not shown, or elsewhere.
    fault("1 get 5: done", "1 fault 5", Reason::FaultedAtPage);
    fault("1 get 5: done", "1 load 6 0 = 0", Reason::NoPageThere);
    // A freed page stays shown.
    fault("1 get 5: done; 1 free 5: done", "1 store 5 0 = 7", Reason::NoPageThere);
    // A given page stays shown at its old place.
    fault("1 get 5: done; 1 give 5 2 6: done", "1 load 5 0 = 0", Reason::NoPageThere);
    // One frame becomes two pages.
    fault("1 get 5: done; 2 get 5: done; 1 store 5 0 = 7", "2 load 5 0 = 7", Reason::NotNoughts { found: 7 });
    let both = format!("{LENT}; 2 get 5: done; 2 open 3: done; 2 lend 5 3 0 r: done");
    fault(&both, "took 3 0 0 = 1 in 9", Reason::FrameOfTwo);
    // Frame 0 becomes a page.
    fault("1 get 5: done; 1 open 0: done; 1 lend 5 0 700 w: done", "took 0 700 0 = 3 in 0", Reason::ReachedKeepers);
    // A frame is lost, or counted as idle too often.
    breaks_on(&small(4), Reason::RefusedInVain { told: 7 }, "1 get 5: done; 1 free 5: done; 1 get 6: done; 1 get 7: done; 1 get 8: no 7");
    breaks_on(&small(3), Reason::DoneNotRefused { right: 7 }, "1 get 5: done; 1 get 6: done; 1 get 7: done");
}

#[test]
fn tables() {
    // The unit is started before frame 0 is cleared.
    breaks(Reason::WroteNotLent, "put 0 700 0 = 1 in 9");
    // An upper or a lower table is not cleared before it is linked.
    fault("1 get 5: done; 1 open 0: done", "took 0 700 0 = 1 in 9", Reason::ReadNotLent);
    fault(LENT, "put 0 701 0 = 1 in 8", Reason::WroteNotLent);
    // The entry is not written, or for another page of the device.
    fault("1 get 5: done; 1 open 0: done; 1 lend 5 0 700 w: done", "miss 0 700 r", Reason::MissedLent);
    // The entry names another frame.
    fault(
        "1 get 5: done; 1 open 0: done; 1 lend 5 0 700 w: done; put 0 700 0 = 1 in 8",
        "1 load 5 0 = 0",
        Reason::WrongWord { found: 0, last: 1 },
    );
    let again = format!("{LENT}; 1 recall 5: drain 0 yes, done; 1 lend 5 0 700 w: done");
    fault(&again, "put 0 700 0 = 2 in 10", Reason::AnotherFrame { first: 9 });
    // The entry may be written though the page was lent to be read; or it may not, though it was lent to be written.
    fault(READ, "put 0 700 0 = 1 in 9", Reason::WroteReadOnly);
    fault(LENT, "miss 0 700 w", Reason::MissedLent);
    // A lower table is linked anew where there is one: what is lent there is lost.
    fault(&format!("{LENT}; 1 get 6: done; 1 lend 6 0 701 w: done"), "miss 0 700 r", Reason::MissedLent);
    // A lower table is made idle before its device is shut.
    let one = "1 get 5: done; 1 open 0: done; 1 lend 5 0 0 r: done; 1 recall 5: drain 0 yes, done";
    breaks_on(&small(4), Reason::DoneNotRefused { right: 7 }, &format!("{one}; 1 get 6: done"));
}

#[test]
fn coming_home() {
    let home = format!("{LENT}; 1 recall 5: drain 0 yes, done");
    // The entry is not cleared at recall; or it is cleared after the drain.
    fault(&home, "put 0 700 0 = 2 in 9", Reason::WroteNotLent);
    fault(&home, "took 0 700 0 = 1 in 9", Reason::ReadNotLent);
    // Another entry is cleared.
    fault(&format!("{LENT}; 1 get 6: done; 1 lend 6 0 701 r: done; 1 recall 5: drain 0 yes, done"), "miss 0 701 r", Reason::MissedLent);
    // The unit is not asked, or another device is asked for.
    fault(LENT, "1 recall 5: done", Reason::DoneUnasked { d: 0 });
    fault(TWO, "1 asks recall 5; drain 1 yes", Reason::DrainedInVain);
    // Home though the unit said no.
    fault(LENT, "1 recall 5: drain 0 no, done", Reason::DoneAfterNo { d: 0 });
    // Later, and the page counts as home.
    fault(&format!("{LENT}; 1 recall 5: drain 0 no, later"), "1 free 5: done", Reason::DoneNotRefused { right: 4 });
    fault(&format!("{LENT}; 1 recall 5: drain 0 no, later"), "1 recall 5: no 4", Reason::RefusedInVain { told: 4 });
    // The yes of an earlier call is used.
    let early = format!("{LENT}; 1 recall 5: drain 0 yes, done; 1 lend 5 0 700 w: done");
    fault(&early, "1 recall 5: done", Reason::DoneUnasked { d: 0 });
    // Later, without asking, or though the unit said yes.
    fault(LENT, "1 recall 5: later", Reason::LaterUnasked { d: 0 });
    fault(LENT, "1 recall 5: drain 0 yes, later", Reason::LaterAfterYes);
    // The unit is asked until it says yes.
    fault(LENT, "1 asks recall 5; drain 0 no; drain 0 yes", Reason::DrainedTwice);
}

#[test]
fn closing_and_ending() {
    let closed = format!("{LENT}; 1 close 0: drain 0 yes, done");
    // The device stays in frame 0 at close.
    fault(&closed, "put 0 700 0 = 2 in 9", Reason::WroteNotLent);
    // Tables are idle though the unit said no.
    let closing = format!("{LENT}; 1 close 0: drain 0 no, later; 2 get 5: done");
    fault(&closing, "put 0 3 0 = 2 in 7", Reason::WroteNotLent);
    // Registers stay shown.
    let shown = "1 open 0: done; 1 regs 0 9: done";
    fault(&format!("{shown}; 1 close 0: drain 0 yes, done"), "1 poke 9 0", Reason::PokedNotOpen);
    fault(&format!("{shown}; 1 close 0: drain 0 no, later"), "1 poke 9 0", Reason::PokedNotOpen);
    // A place shows the registers of another device.
    fault(shown, "1 poke 9 1", Reason::PokedAnother { shown: 0 });
    // Shut though the unit said no.
    fault(LENT, "1 close 0: drain 0 no, done", Reason::DoneAfterNo { d: 0 });
    fault(&format!("{LENT}; 1 close 0: drain 0 no, later"), "1 open 0: done", Reason::DoneNotRefused { right: 6 });
    // End is done though one of the devices was not forgotten, or passes closing devices over.
    fault(TWO, "0 end 1: drain 0 yes, drain 1 no, done", Reason::DoneAfterNo { d: 1 });
    fault(&format!("{LENT}; 1 close 0: drain 0 no, later"), "0 end 1: done", Reason::DoneUnasked { d: 0 });
    // End asks no more after the first no.
    fault(TWO, "0 end 1: drain 0 no, later", Reason::LaterUnasked { d: 1 });
    // End told later, and the pages are idle.
    let ending = format!("{LENT}; 0 end 1: drain 0 no, later");
    fault(&ending, "1 fault 5", Reason::FaultedAtPage);
    fault(&format!("{ending}; 2 get 5: done; put 0 700 0 = 8 in 9"), "2 load 5 0 = 8", Reason::NotNoughts { found: 8 });
    // End told later, and devices that were forgotten are not shut.
    fault(&format!("{TWO}; 0 end 1: drain 0 no, drain 1 yes, later"), "1 open 1: no 6", Reason::RefusedInVain { told: 6 });
    // Pages of an ended program stay shown, or are lost.
    fault("1 get 5: done; 0 end 1: done", "1 load 5 0 = 0", Reason::NoPageThere);
    breaks_on(&small(3), Reason::RefusedInVain { told: 7 }, "1 get 5: done; 1 get 6: done; 0 end 1: done; 2 get 5: no 7");
    // Another program ends.
    fault("1 get 5: done", "2 end 1: done", Reason::DoneNotRefused { right: 8 });
}

#[test]
fn refusing() {
    // A page of a device that is taken by one that is leaving is lent again.
    let leaving = format!("{LENT}; 1 get 6: done; 1 recall 5: drain 0 no, later");
    fault(&leaving, "1 lend 6 0 700 w: done", Reason::DoneNotRefused { right: 3 });
    // A page is freed, given or lent again while it is lent.
    fault(LENT, "1 free 5: done", Reason::DoneNotRefused { right: 4 });
    fault(LENT, "1 give 5 2 5: done", Reason::DoneNotRefused { right: 4 });
    fault(TWO, "1 lend 5 1 700 w: done", Reason::DoneNotRefused { right: 4 });
    // A page is got or given where something is shown.
    fault("1 get 5: done", "1 get 5: done", Reason::DoneNotRefused { right: 3 });
    fault("1 get 5: done; 2 get 6: done", "1 give 5 2 6: done", Reason::DoneNotRefused { right: 3 });
    // A device is opened by one who is not its driver, or while another has one of its group.
    fault("1 get 5: done", "1 open 2: done", Reason::DoneNotRefused { right: 5 });
    fault("1 open 0: done", "2 open 2: done", Reason::DoneNotRefused { right: 6 });
    fault("1 open 0: done; 1 close 0: drain 0 no, later", "2 open 2: done", Reason::DoneNotRefused { right: 6 });
    // Something is lent to a device that another has, or that is closing.
    fault("1 open 0: done; 2 get 5: done", "2 lend 5 0 700 w: done", Reason::DoneNotRefused { right: 5 });
    fault(&format!("{LENT}; 1 get 6: done; 1 close 0: drain 0 no, later"), "1 lend 6 0 3 w: done", Reason::DoneNotRefused { right: 5 });
    // A reason is given that is not the first.
    fault(LENT, "1 get 5: no 7", Reason::WrongNumber { told: 7, right: 3 });
    // A call is refused for nothing.
    fault(LENT, "1 get 6: no 3", Reason::RefusedInVain { told: 3 });
    // A refused call changes something, or asks the unit.
    fault(&format!("{LENT}; 1 free 5: no 4"), "1 fault 5", Reason::FaultedAtPage);
    fault(&format!("{LENT}; 1 get 6: done; 1 lend 6 0 700 r: no 3"), "put 0 700 0 = 2 in 8", Reason::AnotherFrame { first: 9 });
    fault(&format!("{LENT}; 2 asks close 0"), "drain 0 yes", Reason::DrainedInVain);
    breaks_on(&small(3), Reason::RefusedInVain { told: 7 }, "1 get 5: done; 1 get 5: no 3; 1 get 6: no 7");
}
