//! Frames of 512 words.

use protocol::WORDS;

type Frame = [u64; WORDS as usize];

pub(crate) struct Memory {
    frames: Box<[Frame]>,
}

impl Memory {
    pub(crate) fn new(frames: u32) -> Memory {
        Memory { frames: vec![scribbled(); frames as usize].into_boxed_slice() }
    }

    /// As at the start: no word is 0, and each looks like an entry of a table.
    pub(crate) fn scribble(&mut self) {
        self.frames.fill(scribbled());
    }

    pub(crate) fn frames(&self) -> u32 {
        self.frames.len() as u32
    }

    /// A word of a frame, 0 if there is no such frame.
    pub(crate) fn word(&self, frame: u64, word: u32) -> u64 {
        self.frame(frame).map_or(0, |words| words[word as usize])
    }

    /// The first word of a frame that is not 0, from `from` on and then from its start.
    pub(crate) fn first_set(&self, frame: u64, from: u32) -> Option<u32> {
        let (before, behind) = self.frame(frame)?.split_at(from as usize);
        let k = match behind.iter().position(|x| *x != 0) {
            Some(k) => from as usize + k,
            None => before.iter().position(|x| *x != 0)?,
        };
        Some(k as u32)
    }

    #[inline]
    pub(crate) fn write(&mut self, frame: u32, word: u32, x: u64) {
        self.frames[frame as usize][word as usize] = x;
    }

    fn frame(&self, frame: u64) -> Option<&Frame> {
        self.frames.get(usize::try_from(frame).ok()?)
    }
}

fn scribbled() -> Frame {
    std::array::from_fn(|k| k as u64 % 128 + 1)
}
