//! What a script is after, for a while.

use crate::random::Random;

/// What the next line does.
#[derive(Clone, Copy, Debug, PartialEq, Eq)]
pub enum Act {
    Get,
    Free,
    Give,
    Open,
    Close,
    Regs,
    Lend,
    Recall,
    End,
    Store,
    Load,
    Read,
    Write,
    Keep,
    Kept,
    Refuse,
}

/// For a while, some lines come more often than others.
#[derive(Clone, Copy, Debug, PartialEq, Eq)]
pub enum Mood {
    Everyday,
    /// Much is lent, kept, and recalled.
    Lending,
    /// Devices are opened and closed, and programs ended.
    Coming,
    /// Pages are got until no frame is idle.
    Filling,
    /// As little as possible becomes idle.
    Full,
    /// Much is lent and kept, and nothing recalled.
    Keeping,
    /// It is found out what an `end` has left open.
    Doubting,
}

impl Mood {
    /// Another mood, and for how many lines.
    pub fn random(random: &mut Random, frames: u32) -> (Mood, u32) {
        let filling = match frames {
            64 => 15,
            512 => 4,
            _ => 1,
        };
        let moods = [(Mood::Everyday, 20), (Mood::Lending, 40), (Mood::Coming, 25), (Mood::Filling, filling), (Mood::Keeping, 2)];
        let mood = random.weighted(&moods);
        let lines = match mood {
            Mood::Filling => 3 * frames.min(1024),
            Mood::Keeping => 2 * frames.min(512),
            _ => 10 + random.below(80),
        };
        (mood, lines)
    }

    pub fn act(self, random: &mut Random) -> Act {
        random.weighted(match self {
            Mood::Everyday => EVERYDAY,
            Mood::Lending => LENDING,
            Mood::Coming => COMING,
            Mood::Filling => FILLING,
            Mood::Full => FULL,
            Mood::Keeping => KEEPING,
            Mood::Doubting => DOUBTING,
        })
    }
}

type Weights = &'static [(Act, u32)];

const EVERYDAY: Weights = &[
    (Act::Get, 12),
    (Act::Free, 6),
    (Act::Give, 8),
    (Act::Open, 8),
    (Act::Close, 2),
    (Act::Regs, 5),
    (Act::Lend, 12),
    (Act::Recall, 8),
    (Act::End, 1),
    (Act::Store, 8),
    (Act::Load, 12),
    (Act::Read, 5),
    (Act::Write, 5),
    (Act::Keep, 4),
    (Act::Kept, 4),
    (Act::Refuse, 3),
];

const LENDING: Weights = &[
    (Act::Get, 10),
    (Act::Free, 2),
    (Act::Give, 2),
    (Act::Open, 8),
    (Act::Close, 1),
    (Act::Lend, 20),
    (Act::Recall, 14),
    (Act::Store, 3),
    (Act::Load, 10),
    (Act::Read, 4),
    (Act::Write, 6),
    (Act::Keep, 8),
    (Act::Kept, 8),
    (Act::Refuse, 6),
];

const COMING: Weights = &[
    (Act::Get, 10),
    (Act::Free, 1),
    (Act::Give, 1),
    (Act::Open, 20),
    (Act::Close, 12),
    (Act::Regs, 10),
    (Act::Lend, 14),
    (Act::Recall, 4),
    (Act::End, 4),
    (Act::Store, 2),
    (Act::Load, 8),
    (Act::Keep, 4),
    (Act::Kept, 4),
    (Act::Refuse, 8),
];

const FILLING: Weights = &[(Act::Get, 90), (Act::Open, 3), (Act::Lend, 4), (Act::Store, 3)];

const FULL: Weights = &[
    (Act::Get, 12),
    (Act::Free, 3),
    (Act::Give, 3),
    (Act::Open, 14),
    (Act::Close, 3),
    (Act::Lend, 25),
    (Act::Recall, 14),
    (Act::Store, 5),
    (Act::Load, 8),
    (Act::Refuse, 2),
];

const KEEPING: Weights =
    &[(Act::Get, 20), (Act::Open, 5), (Act::Lend, 30), (Act::Write, 2), (Act::Load, 3), (Act::Keep, 30), (Act::Kept, 10)];

const DOUBTING: Weights = &[
    (Act::Get, 4),
    (Act::Free, 5),
    (Act::Give, 5),
    (Act::Open, 8),
    (Act::Close, 8),
    (Act::Lend, 6),
    (Act::Recall, 8),
    (Act::End, 4),
    (Act::Store, 3),
    (Act::Load, 8),
    (Act::Kept, 5),
    (Act::Refuse, 4),
];
