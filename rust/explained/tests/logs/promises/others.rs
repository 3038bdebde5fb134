//! Of what is promised by them: the main promise, the theorems, the machine's bounds, and how drains are asked for.

use super::Row;
use explained::Reason::*;

/// `Promise`, and `told` in `lib.rt`.
pub const PROMISE: &[Row] = &[
    Row("`can`, `AllBuilt`", "1 get 5: done", "1 give 5 2 6: done", "1 give 5 2 6: no 9", RefusedInVain { told: 9 }),
    Row("`CoreBuilt`", "OPEN", "1 lend 5 0 7 w: done", "1 lend 5 0 7 w: no 9", RefusedInVain { told: 9 }),
    Row("`Explained`: `Run`", "LENT", "took 0 7 0 = 0 in 9", "took 0 8 0 = 0 in 9", ReadNotLent),
    Row("`OnePlace`: `is_of`", "1 get 5: done; 2 get 6: done", "2 give 6 1 6: done", "2 give 6 1 5: done", DoneNotRefused { right: 3 }),
    Row("`OnePlace`: `is_at`", "LEAVING; 1 get 6: done", "1 lend 6 0 8 w: done", "1 lend 6 0 7 w: done", DoneNotRefused { right: 3 }),
    Row(
        "`LentByDriver`: `Lent`",
        "1 open 0: done; 2 get 5: done",
        "2 lend 5 0 7 w: no 5",
        "2 lend 5 0 7 w: done",
        DoneNotRefused { right: 5 },
    ),
    Row("`LentByDriver`: `Leaving`", "LEAVING", "1 give 5 2 6: no 4", "1 give 5 2 6: done", DoneNotRefused { right: 4 }),
    Row("`LentByDriver`: `group`", "1 open 0: done", "1 open 1: done", "2 open 2: done", DoneNotRefused { right: 6 }),
    Row("`HomeIsQuiet`: `TookFrom`", "LENT; 1 recall 5: drain 0 yes, done", "miss 0 7 r", "took 0 7 0 = 0 in 9", ReadNotLent),
    Row("`HomeIsQuiet`: `PutInto`", "LENT; 1 recall 5: drain 0 yes, done", "miss 0 7 w", "put 0 7 0 = 1 in 9", WroteNotLent),
    Row("`NewIsNoughts`", "1 get 5: done", "1 load 5 511 = 0", "1 load 5 511 = 3", NotNoughts { found: 3 }),
    Row("`rounds`: `Told who c a`", "1 asks get 5", "1 told get 5 done", "1 told free 5 done", ToldAnother),
];

/// The theorems of `docs/MODEL.md`.
pub const THEOREMS: &[Row] = &[
    Row("`one_place`", "1 get 5: done", "1 get 6: done", "1 get 5: done", DoneNotRefused { right: 3 }),
    Row(
        "`lent_by_driver`",
        "1 open 0: done; 2 get 5: done; 2 open 3: done",
        "2 lend 5 3 7 w: done",
        "2 lend 5 0 7 w: done",
        DoneNotRefused { right: 5 },
    ),
    Row("`home_is_quiet`", "OPEN", "miss 0 7 r", "took 0 7 0 = 0 in 9", ReadNotLent),
    Row("`home_is_quiet`, noughts", "LENT", "took 0 7 0 = 0 in 9", "took 0 7 0 = 3 in 9", NotNoughts { found: 3 }),
    Row("`written_was_lent`", "READ; 1 recall 5: drain 0 no, later", "took 0 7 0 = 0 in 9", "put 0 7 0 = 1 in 9", WroteReadOnly),
    Row("`missed_is_not_lent`", "LENT", "1 asks recall 5; miss 0 7 w", "1 asks free 5; miss 0 7 w", MissedLent),
    Row("`faults_at_nothing`", "1 open 0: done; 1 regs 0 9: done", "1 poke 9 0", "1 fault 9", FaultedAtRegisters),
    Row("`page_is_reached`, fault", "1 get 5: done; 1 give 5 2 6: done", "2 load 6 0 = 0", "2 fault 6", FaultedAtPage),
    Row("`page_is_reached`, poke", "SHOWN; 1 get 5: done", "1 poke 9 0", "1 poke 5 0", PokedAtPage),
    Row("`pokes_its_own`", "SHOWN; 1 close 0: drain 0 no, later", "1 fault 9", "1 poke 9 0", PokedNotOpen),
    Row("`refused_is_untouched`, uses", "1 get 5: done; 2 give 5 3 5: no 2", "1 load 5 0 = 0", "1 fault 5", FaultedAtPage),
    Row("`refused_is_untouched`, loans", "LENT; 1 asks free 5", "took 0 7 0 = 0 in 9", "miss 0 7 r", MissedLent),
    Row(
        "`refused_is_untouched`, devices",
        "2 get 5: done; 2 open 0: no 5",
        "2 lend 5 0 7 w: no 5",
        "2 lend 5 0 7 w: done",
        DoneNotRefused { right: 5 },
    ),
    Row(
        "`refused_is_untouched`, slots",
        "4 frames; OPEN; 1 lend 6 0 7 w: no 2",
        "1 get 6: done",
        "1 get 6: no 7",
        RefusedInVain { told: 7 },
    ),
    Row("`refused_is_untouched`, registers", "1 open 0: done; 2 regs 0 9: no 5", "2 fault 9", "2 poke 9 0", PokedNotOpen),
    Row("`refused_is_untouched`, words", "NAMED; 1 free 5: no 4", "1 load 5 0 = 1", "1 load 5 0 = 0", WrongWord { found: 0, last: 1 }),
    Row(
        "`refused_is_untouched`, devices' writes",
        "LENT; 1 asks free 5; put 0 7 0 = 1 in 9; 1 told free 5 no 4",
        "1 load 5 0 = 1",
        "1 load 5 0 = 0",
        WrongWord { found: 0, last: 1 },
    ),
    Row("`later_is_excused`", "LENT", "1 close 0: drain 0 no, later", "1 close 0: later", LaterUnasked { d: 0 }),
    Row("`later_is_excused`, yes", "LENT", "1 close 0: drain 0 yes, done", "1 close 0: drain 0 yes, later", LaterAfterYes),
    Row("`done_is_drained`", "LENT", "1 recall 5: drain 0 yes, done", "1 recall 5: done", DoneUnasked { d: 0 }),
    Row("`done_is_drained`, no", "LENT", "0 end 1: drain 0 yes, done", "0 end 1: drain 0 no, done", DoneAfterNo { d: 0 }),
    Row("`recalled_is_gone`", "LENT; put 0 7 0 = 1 in 9; 1 recall 5: drain 0 yes, done", "miss 0 7 w", "put 0 7 0 = 2 in 9", WroteNotLent),
    Row(
        "`recalled_is_gone`, its next owner",
        "LENT; put 0 7 0 = 1 in 9; 1 recall 5: drain 0 yes, done; 1 free 5: done; 2 get 5: done",
        "miss 0 7 w",
        "put 0 7 0 = 2 in 9",
        WroteNotLent,
    ),
    Row(
        "`recalled_is_gone`, another page lent",
        "LENT; put 0 7 0 = 1 in 9; 1 recall 5: drain 0 yes, done; 1 get 6: done; 1 lend 6 0 7 w: done",
        "put 0 7 0 = 2 in 8",
        "put 0 7 0 = 2 in 9",
        FrameOfTwo,
    ),
    Row("`closed_is_gone`", "NAMED; 1 close 0: drain 0 yes, done", "miss 0 7 r", "took 0 7 0 = 1 in 9", ReadNotLent),
    Row(
        "`closed_is_gone`, opened again",
        "NAMED; 1 close 0: drain 0 yes, done; 1 open 0: done",
        "miss 0 7 r",
        "took 0 7 0 = 1 in 9",
        ReadNotLent,
    ),
    Row("`ended_is_gone`", "TWO; 0 end 1: drain 0 yes, drain 1 yes, done", "miss 0 7 r", "took 0 7 0 = 0 in 9", ReadNotLent),
    Row(
        "`ended_is_gone`, opened again",
        "TWO; 0 end 1: drain 0 yes, drain 1 yes, done; 1 open 0: done",
        "miss 0 7 r",
        "took 0 7 0 = 0 in 9",
        ReadNotLent,
    ),
    Row(
        "`home_is_its_owners`",
        "LENT; put 0 7 0 = 1 in 9; 1 recall 5: drain 0 yes, done; 1 get 6: done; 1 store 6 0 = 4",
        "1 load 5 0 = 1",
        "1 load 5 0 = 4",
        WrongWord { found: 4, last: 1 },
    ),
    Row(
        "`home_stays`",
        "1 get 5: done; 2 get 5: done; 2 open 3: done; 2 lend 5 3 7 w: done; 0 end 2: drain 3 yes, done",
        "1 load 5 0 = 0",
        "1 fault 5",
        FaultedAtPage,
    ),
    Row("`home_stays`, recall", "1 get 5: done", "1 recall 5: no 4", "1 recall 5: later", LaterNotRefused { right: 4 }),
    Row(
        "`holds_last_written`",
        "LEAVING; put 0 7 1 = 2 in 9; 1 recall 5: drain 0 yes, done",
        "1 load 5 1 = 2",
        "1 load 5 1 = 0",
        WrongWord { found: 0, last: 2 },
    ),
    Row(
        "`holds_last_written`, given",
        "LENT; put 0 7 0 = 1 in 9; 1 recall 5: drain 0 yes, done; 1 give 5 2 5: done",
        "2 load 5 0 = 1",
        "2 load 5 1 = 1",
        NotNoughts { found: 1 },
    ),
];

/// What there is: `Machine` has these bounds, and the meaning none.
pub const BOUNDS: &[Row] = &[
    Row("`Comes`: `who < 32`", "", "31 asks get 5", "32 asks get 5", NoSuchProgram),
    Row("`faults`: `c < 32`", "", "31 fault 5", "32 fault 5", NoSuchProgram),
    Row("`faults`: `v < 1024`", "", "1 fault 1023", "1 fault 1024", NoSuchPlace),
    Row("`loads`: `k < 512`", "1 get 5: done", "1 load 5 511 = 0", "1 load 5 512 = 0", NoSuchWord),
    Row("`stores`: `k < 512`", "1 get 5: done", "1 store 5 511 = 3", "1 store 5 512 = 3", NoSuchWord),
    Row("`takes`: `k < 512`", "LENT", "took 0 7 511 = 0 in 9", "took 0 7 512 = 0 in 9", NoSuchWord),
    Row("`puts`: `k < 512`", "LENT", "put 0 7 511 = 1 in 9", "put 0 7 512 = 1 in 9", NoSuchWord),
    Row("`misses`: `d < devices`", "", "miss 3 7 r", "miss 4 7 r", NoSuchDevice),
    Row("`misses`: `p < 262144`", "", "miss 3 262143 r", "miss 3 262144 r", NoSuchPage),
];

/// How the keeper goes about drains: the meaning does not ask for it.
pub const DRAINS: &[Row] = &[
    Row("no drain between calls", "LENT", "1 asks recall 5; drain 0 yes", "drain 0 yes", DrainedBetweenCalls),
    Row("no drain that a call does not wait for", "TWO; 1 asks recall 5", "drain 0 yes", "drain 1 yes", DrainedInVain),
    Row("no drain in a refused call", "LENT", "1 asks close 0; drain 0 yes", "2 asks close 0; drain 0 yes", DrainedInVain),
    Row("one drain for each device", "LENT; 1 asks recall 5; drain 0 no", "1 told recall 5 later", "drain 0 yes", DrainedTwice),
];
