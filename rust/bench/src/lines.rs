//! Lines by short names.

use protocol::{Call, Line};

fn call(who: u32, call: Call) -> Line {
    Line::Call { who, call }
}

pub fn get(who: u32, v: u32) -> Line {
    call(who, Call::Get { v })
}

pub fn free(who: u32, v: u32) -> Line {
    call(who, Call::Free { v })
}

pub fn give(who: u32, v: u32, to: u32, at: u32) -> Line {
    call(who, Call::Give { v, to, at })
}

pub fn open(who: u32, d: u32) -> Line {
    call(who, Call::Open { d })
}

pub fn close(who: u32, d: u32) -> Line {
    call(who, Call::Close { d })
}

pub fn regs(who: u32, d: u32, v: u32) -> Line {
    call(who, Call::Regs { d, v })
}

/// To be written.
pub fn lend(who: u32, v: u32, d: u32, p: u32) -> Line {
    call(who, Call::Lend { v, d, p, writes: true })
}

pub fn recall(who: u32, v: u32) -> Line {
    call(who, Call::Recall { v })
}

pub fn end(who: u32) -> Line {
    call(0, Call::End { who })
}

pub fn no(n: u64) -> Line {
    Line::Refuse { n }
}

pub fn load(who: u32, v: u32) -> Line {
    Line::Load { who, v, word: 0 }
}
