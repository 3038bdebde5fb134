//! The library's own functions. Nothing compares these declarations with those of crates/tevmalo/src, so both are changed together.

use crate::rows::{LowerTable, PageEntry, Played, Row, Said, UpperTable};
use protocol::Device;

unsafe extern "C" {
    fn tevmalo_play(
        devices: *const Device,
        devices_len: usize,
        memory: *mut u64,
        memory_len: usize,
        room: *mut u64,
        room_len: usize,
        uppers: *mut UpperTable,
        uppers_len: usize,
        lowers: *mut LowerTable,
        lowers_len: usize,
        pages: *mut PageEntry,
        pages_len: usize,
        accesses: *mut PageEntry,
        accesses_len: usize,
        log: *mut Row,
        log_len: usize,
        script: *const u8,
        script_len: usize,
        said: *mut Said,
        said_len: usize,
        played: *mut Played,
    ) -> u32;

    fn tevmalo_run(
        devices: *const Device,
        devices_len: usize,
        memory: *mut u64,
        memory_len: usize,
        room: *mut u64,
        room_len: usize,
        uppers: *mut UpperTable,
        uppers_len: usize,
        lowers: *mut LowerTable,
        lowers_len: usize,
        pages: *mut PageEntry,
        pages_len: usize,
        accesses: *mut PageEntry,
        accesses_len: usize,
        log: *mut Row,
        log_len: usize,
        script: *const Row,
        script_len: usize,
        said: *mut Said,
        said_len: usize,
        played: *mut Played,
    ) -> u32;
}

/// What is lent for a machine's life.
pub struct Slices<'a> {
    pub devices: &'a [Device],
    pub memory: &'a mut [u64],
    pub room: &'a mut [u64],
    pub uppers: &'a mut [UpperTable],
    pub lowers: &'a mut [LowerTable],
    pub pages: &'a mut [PageEntry],
    pub accesses: &'a mut [PageEntry],
    pub log: &'a mut [Row],
    pub said: &'a mut [Said],
}

/// Calls one of the two, which take the same but for the script.
macro_rules! call {
    ($name:ident, $slices:expr, $script:expr) => {{
        let Slices { devices, memory, room, uppers, lowers, pages, accesses, log, said } = $slices;
        let mut played = Played::default();
        // SAFETY: the declaration fits the library's; each pointer and length are those of one slice, which is borrowed for the call, and
        // no two of those that are written overlap, being `&mut`. The function requires nothing else.
        let status = unsafe {
            $name(
                devices.as_ptr(),
                devices.len(),
                memory.as_mut_ptr(),
                memory.len(),
                room.as_mut_ptr(),
                room.len(),
                uppers.as_mut_ptr(),
                uppers.len(),
                lowers.as_mut_ptr(),
                lowers.len(),
                pages.as_mut_ptr(),
                pages.len(),
                accesses.as_mut_ptr(),
                accesses.len(),
                log.as_mut_ptr(),
                log.len(),
                $script.as_ptr(),
                $script.len(),
                said.as_mut_ptr(),
                said.len(),
                &raw mut played,
            )
        };
        if status == 0 { Ok(played) } else { Err(status) }
    }};
}

/// Plays a script of text on a machine as at the start, up to its end or the first `new`: what came of it, or the number of the
/// reason why nothing was played.
pub fn play(slices: Slices<'_>, script: &[u8]) -> Result<Played, u32> {
    call!(tevmalo_play, slices, script)
}

/// The same for a script of rows.
pub fn run(slices: Slices<'_>, script: &[Row]) -> Result<Played, u32> {
    call!(tevmalo_run, slices, script)
}
