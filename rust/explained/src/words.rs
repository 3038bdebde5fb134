use crate::Reason;
use protocol::WORDS;

/// The words of a page. Nothing is kept for one that nobody wrote to since it was got.
#[derive(Clone, Debug, Default)]
pub struct Words(Option<Box<Written>>);

#[derive(Clone, Debug)]
struct Written {
    words: [u64; WORDS as usize],
    /// One bit for each word: whether it was written.
    which: [u64; WORDS as usize / 64],
}

impl Words {
    /// A word is what was last put there, and nought if nothing was.
    pub fn check(&self, word: u32, found: u64) -> Result<(), Reason> {
        match self.last(word) {
            None if found != 0 => Err(Reason::NotNoughts { found }),
            Some(last) if found != last => Err(Reason::WrongWord { found, last }),
            _ => Ok(()),
        }
    }

    pub fn set(&mut self, word: u32, x: u64) {
        let written = self.0.get_or_insert_with(|| Box::new(Written { words: [0; WORDS as usize], which: [0; WORDS as usize / 64] }));
        written.words[word as usize] = x;
        written.which[word as usize / 64] |= 1 << (word % 64);
    }

    fn last(&self, word: u32) -> Option<u64> {
        let written = self.0.as_ref()?;
        (written.which[word as usize / 64] >> (word % 64) & 1 == 1).then(|| written.words[word as usize])
    }
}
