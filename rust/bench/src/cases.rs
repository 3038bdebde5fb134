//! What is measured: rounds of calls that leave the machine as it was, behind a setting up that brings it there.

use crate::lines::*;
use protocol::{Device, FEWEST_FRAMES, Line, PLACES, PROGRAMS, WORDS};

/// How much of the memory is in use.
#[derive(Clone, Copy, Debug, PartialEq, Eq)]
pub enum Fill {
    /// A few frames.
    Few,
    /// Nine of ten frames, or as many as 32 programs and 32 devices can have.
    Most,
}

/// Calls of one kind, or of a kind and of what undoes it.
pub struct Case {
    pub name: &'static str,
    pub setup: Vec<Line>,
    pub round: Vec<Line>,
    /// How many calls of the kind a round has.
    pub calls: usize,
    /// What belongs to a round and is not measured: it is timed by itself, and taken off.
    pub besides: Vec<Line>,
    /// A round cannot be repeated, since nothing undoes it.
    pub once: bool,
}

/// Device d has driver d, and is alone in its group.
pub fn devices() -> Vec<Device> {
    (0..PROGRAMS).map(|d| Device { group: d, driver: d }).collect()
}

/// The program whose calls are measured, and its device.
const WHO: u32 = 1;
/// Another one.
const OTHER: u32 = 2;
/// Places that the setting up leaves free.
const FREE: u32 = PLACES - 8;

/// Brings the memory to this state: what is idle lies scattered.
fn filled(frames: u32, fill: Fill) -> Vec<Line> {
    let mut lines = vec![open(WHO, WHO), get(WHO, 0), lend(WHO, 0, WHO, 0), recall(WHO, 0)];
    if fill == Fill::Few {
        return lines;
    }
    // So many frames are in use after all; four of them are by now.
    let most = frames - 1 - frames / 10;
    let mut used = 4;
    let mut freed = Vec::new();
    'pages: for who in (0..PROGRAMS).filter(|w| *w != OTHER) {
        for v in 1..FREE - 8 {
            // Each tenth is free again in the end, so that the idle frames are no heap.
            if used >= most {
                break 'pages;
            }
            lines.push(get(who, v));
            used += 1;
            if v % 10 == 5 {
                freed.push(free(who, v));
                used -= 1;
            }
        }
    }
    lines.extend(freed);
    // What memory is left is taken by page tables, as far as there are slots.
    'tables: for d in (0..PROGRAMS).filter(|d| *d != OTHER) {
        if d != WHO {
            if used >= most {
                break;
            }
            lines.extend([open(d, d)]);
            used += 1;
        }
        for slot in 1..WORDS {
            if used >= most {
                break 'tables;
            }
            lines.extend([lend(d, 1, d, slot * WORDS), recall(d, 1)]);
            used += 1;
        }
    }
    lines
}

/// All that is measured on a machine of so many frames, filled so.
pub fn cases(frames: u32, fill: Fill) -> Vec<Case> {
    let setup = filled(frames, fill);
    let case = |name, more: &[Line], round: &[Line], calls| Case {
        name,
        setup: setup.iter().chain(more).copied().collect(),
        round: round.to_vec(),
        calls,
        besides: Vec::new(),
        once: false,
    };
    let regs: Vec<Line> = (0..512).map(|k| regs(OTHER, OTHER, k)).collect();
    let mut registers =
        case("regs, hidden by close", &[open(OTHER, OTHER)], &[&regs[..], &[close(OTHER, OTHER), open(OTHER, OTHER)]].concat(), 512);
    registers.besides = vec![close(OTHER, OTHER), open(OTHER, OTHER)];
    let mut put_off = case("recall, later", &[lend(WHO, 0, WHO, 0)], &[no(1), recall(WHO, 0)], 1);
    put_off.besides = vec![no(1)];
    let mut cases = vec![
        case("get, free", &[], &[get(WHO, FREE), free(WHO, FREE)], 2),
        case("give", &[], &[give(WHO, 0, OTHER, FREE), give(OTHER, FREE, WHO, 0)], 2),
        registers,
        case("lend, recall", &[], &[lend(WHO, 0, WHO, 0), recall(WHO, 0)], 2),
        put_off,
        case("open, close", &[], &[open(OTHER, OTHER), close(OTHER, OTHER)], 2),
        case("end of nothing", &[], &[end(OTHER)], 1),
        case("get, open, lend, end", &[], &[get(OTHER, 5), open(OTHER, OTHER), lend(OTHER, 5, OTHER, 7), end(OTHER)], 4),
        case("refused: get", &[], &[get(WHO, 0)], 1),
        case("no call: load", &[], &[load(WHO, 0)], 1),
    ];
    // On a larger machine the setting up takes so long that what these take cannot be told from how much it varies.
    if fill == Fill::Few && frames == FEWEST_FRAMES {
        cases.extend(alone(frames, &setup));
    }
    cases
}

/// Calls of one kind without what undoes them, as many as there is room for.
fn alone(frames: u32, setup: &[Line]) -> Vec<Case> {
    let places = (PROGRAMS - 1) * (FREE - 1);
    let count = (frames - 16).min(places);
    let place = |k: u32| ((k / (FREE - 1) + OTHER) % PROGRAMS, 1 + k % (FREE - 1));
    let gets: Vec<Line> = (0..count).map(|k| get(place(k).0, place(k).1)).collect();
    let frees: Vec<Line> = (0..count).map(|k| free(place(k).0, place(k).1)).collect();
    // Pages of one program, lent to its device behind one another.
    let lent = count.min(WORDS - 1);
    let lends: Vec<Line> = (0..lent).map(|k| lend(OTHER, 1 + k, OTHER, k)).collect();
    let recalls: Vec<Line> = (0..lent).map(|k| recall(OTHER, 1 + k)).collect();
    let devices = PROGRAMS.min(frames / 2) - 1;
    let opens: Vec<Line> = (0..devices).map(|k| open(k + 1, k + 1)).filter(|line| *line != open(WHO, WHO)).collect();
    let closes: Vec<Line> = (0..devices).map(|k| close(k + 1, k + 1)).filter(|line| *line != close(WHO, WHO)).collect();
    let owned = [&gets[..], &[open(OTHER, OTHER), lend(OTHER, 1, OTHER, 0), recall(OTHER, 1)]].concat();
    let case = |name, more: &[Line], round: &[Line]| Case {
        name,
        setup: [setup, more].concat(),
        round: round.to_vec(),
        calls: round.len(),
        besides: Vec::new(),
        once: true,
    };
    vec![
        case("get alone", &[], &gets),
        case("free alone", &gets, &frees),
        case("lend alone", &owned, &lends),
        case("recall alone", &[&owned[..], &lends[..]].concat(), &recalls),
        case("open alone", &[], &opens),
        case("close alone", &opens, &closes),
    ]
}
