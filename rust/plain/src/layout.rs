//! Where the tables lie in the words: places, lower tables, devices, and two words for each frame.

use protocol::{PLACES, WORDS};

/// 32 devices have 512 slots each, behind the 1,024 places of 32 programs each.
const LOWER_TABLES: usize = 32_768;
/// 32 devices have two words each: the state, and the frame of the upper table.
const DEVICES: usize = 49_152;
/// From here on each frame has two words.
pub(crate) const FRAMES: usize = 65_536;

/// What place v of a program shows.
#[inline(always)]
pub(crate) fn place_word(who: u32, v: u32) -> usize {
    (who * PLACES + v) as usize
}

/// The lower table at a slot of d.
#[inline(always)]
pub(crate) fn slot_word(d: u32, slot: u32) -> usize {
    LOWER_TABLES + (d * WORDS + slot) as usize
}

/// The state of d. The word behind it has the frame of its upper table.
#[inline(always)]
pub(crate) fn device_word(d: u32) -> usize {
    DEVICES + 2 * d as usize
}

/// What frame f is used for. The word behind it has its loan, or its slot.
#[inline(always)]
pub(crate) fn frame_word(f: u32) -> usize {
    FRAMES + 2 * f as usize
}
