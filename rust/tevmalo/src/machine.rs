//! A machine of some size, on which one script after the other is played.

use crate::foreign::{self, Slices};
use crate::prepared::Prepared;
use crate::refusal::Refusal;
use crate::rows::{LowerTable, PageEntry, Row, Said, UpperTable};
use protocol::{Device, Event, MOST_FRAMES, Transcript, WORDS};

/// The words that the keeper wants, beside two for each frame.
const ROOM: usize = 65_536;

/// All that is lent to the library: memory, the keeper's room, what the IOMMU keeps, and the log.
pub struct Machine {
    devices: Vec<Device>,
    memory: Vec<u64>,
    room: Vec<u64>,
    uppers: Vec<UpperTable>,
    lowers: Vec<LowerTable>,
    pages: Vec<PageEntry>,
    accesses: Vec<PageEntry>,
    log: Vec<Row>,
}

impl Machine {
    /// A machine of so many frames, with these devices, and room for so many events on each that is played. The IOMMU may keep as many
    /// tables and pages of each kind as there are frames.
    ///
    /// # Errors
    ///
    /// There are more frames than a machine can have. What else is out of range is found when a script is played.
    pub fn new(frames: u32, devices: &[Device], events: usize) -> Result<Machine, Refusal> {
        if frames > MOST_FRAMES {
            return Err(Refusal::Frames);
        }
        let frames = frames as usize;
        Ok(Machine {
            devices: devices.to_vec(),
            memory: vec![0; frames * WORDS as usize],
            room: vec![0; ROOM + 2 * frames],
            uppers: vec![UpperTable::default(); frames],
            lowers: vec![LowerTable::default(); frames],
            pages: vec![PageEntry::default(); frames],
            accesses: vec![PageEntry::default(); frames],
            log: vec![Row::default(); events],
        })
    }

    /// Plays a script, on another machine as at the start after each `new`.
    ///
    /// # Errors
    ///
    /// No machine can be made of what is lent; nothing is played then.
    pub fn play(&mut self, script: &[u8]) -> Result<Transcript, Refusal> {
        let mut said = vec![Said::default(); script.iter().filter(|b| **b == b'\n').count() + 1];
        let mut transcript = Transcript::default();
        let mut rest = script;
        loop {
            let played = foreign::play(self.lend(&mut said), rest)?;
            let before = transcript.outcomes.len() as u64;
            transcript.outcomes.extend(said[..played.lines as usize].iter().map(|said| said.outcome(before)));
            transcript.logs.push(self.log[..played.events as usize].iter().copied().map(Event::from).collect());
            if played.again == 0 {
                return Ok(transcript);
            }
            rest = after_lines(rest, played.lines);
        }
    }

    /// Plays a prepared script on a machine as at the start, up to its end or the first `new`, and says how many lines were read.
    ///
    /// # Errors
    ///
    /// No machine can be made of what is lent; nothing is played then.
    pub fn run(&mut self, script: &mut Prepared) -> Result<usize, Refusal> {
        let Prepared { rows, said } = script;
        let played = foreign::run(self.lend(said), rows)?;
        Ok(played.lines as usize)
    }

    fn lend<'a>(&'a mut self, said: &'a mut [Said]) -> Slices<'a> {
        Slices {
            devices: &self.devices,
            memory: &mut self.memory,
            room: &mut self.room,
            uppers: &mut self.uppers,
            lowers: &mut self.lowers,
            pages: &mut self.pages,
            accesses: &mut self.accesses,
            log: &mut self.log,
            said,
        }
    }
}

/// What follows so many lines of a text.
fn after_lines(text: &[u8], lines: u64) -> &[u8] {
    let mut rest = text;
    for _ in 0..lines {
        match rest.iter().position(|b| *b == b'\n') {
            Some(end) => rest = &rest[end + 1..],
            None => return &[],
        }
    }
    rest
}
