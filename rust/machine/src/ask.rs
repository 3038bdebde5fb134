//! Operations of the machine as values.

use crate::Machine;
use protocol::WORDS;

/// What a keeper asks of the machine: one operation, or the noughts of a whole frame.
#[derive(Clone, Copy, Debug, PartialEq, Eq)]
pub enum Ask {
    /// 0 into each word of a frame, upwards: 512 operations.
    Clear {
        frame: u32,
    },
    Put {
        frame: u32,
        word: u32,
        x: u64,
    },
    Get {
        frame: u32,
        word: u32,
    },
    Show {
        who: u32,
        v: u32,
        frame: u32,
    },
    ShowRegisters {
        who: u32,
        v: u32,
        d: u32,
    },
    Hide {
        who: u32,
        v: u32,
    },
    Start,
    Drain {
        d: u32,
    },
}

/// Asks a machine for these, in their order, and for nothing else. A machine can be asked for 2,048 in a call.
#[inline]
pub fn perform(m: &mut impl Machine, asks: &[Ask]) {
    for ask in asks {
        match *ask {
            Ask::Clear { frame } => (0..WORDS).for_each(|word| m.put(frame, word, 0)),
            Ask::Put { frame, word, x } => m.put(frame, word, x),
            Ask::Get { frame, word } => drop(m.get(frame, word)),
            Ask::Show { who, v, frame } => m.show(who, v, frame),
            Ask::ShowRegisters { who, v, d } => m.show_registers(who, v, d),
            Ask::Hide { who, v } => m.hide(who, v),
            Ask::Start => m.start(),
            Ask::Drain { d } => drop(m.drain(d)),
        }
    }
}

/// These, with a `Clear` wherever a frame is made noughts.
pub(crate) fn folded(mut asks: &[Ask]) -> Vec<Ask> {
    let mut folded = Vec::new();
    while let Some((first, rest)) = asks.split_first() {
        let (ask, behind) = cleared(asks).unwrap_or((*first, rest));
        folded.push(ask);
        asks = behind;
    }
    folded
}

/// If these begin with the noughts of a frame: that, and what comes behind.
fn cleared(asks: &[Ask]) -> Option<(Ask, &[Ask])> {
    let (first, behind) = asks.split_at_checked(WORDS as usize)?;
    let Ask::Put { frame, .. } = first[0] else {
        return None;
    };
    let noughts = (0..WORDS).map(|word| Ask::Put { frame, word, x: 0 });
    first.iter().copied().eq(noughts).then_some((Ask::Clear { frame }, behind))
}
