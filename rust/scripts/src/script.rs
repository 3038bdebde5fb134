//! Scripts.

use crate::author::Author;
use crate::random::Random;
use crate::setup::Setup;

/// A line, without its line feed.
pub type Text = Vec<u8>;

/// What a script is to be like.
#[derive(Clone, Copy, Debug)]
pub struct Wish {
    pub lines: usize,
    /// Whether there are lines `seed`.
    pub seeds: bool,
    /// Whether there are lines `new`.
    pub news: bool,
}

/// A script, and the machine for it.
#[derive(Clone, Debug)]
pub struct Script {
    pub setup: Setup,
    pub lines: Vec<Text>,
}

impl Script {
    /// The script that this number chooses.
    pub fn random(seed: u64, setup: Setup, wish: Wish) -> Script {
        let mut author = Author::new(Random::new(seed), setup.clone(), wish);
        let lines = (0..wish.lines).map(|_| author.write()).collect();
        Script { setup, lines }
    }

    pub fn bytes(&self) -> Text {
        bytes_of(&self.lines)
    }
}

/// The lines, each with its line feed.
pub fn bytes_of(lines: &[Text]) -> Text {
    let mut bytes = Vec::with_capacity(lines.iter().map(|line| line.len() + 1).sum());
    for line in lines {
        bytes.extend_from_slice(line);
        bytes.push(b'\n');
    }
    bytes
}
