//! Lines of a script, as docs/SCRIPTS.md has them.

use crate::Call;
use std::fmt;

/// The longest line, in bytes.
pub const LONGEST: usize = 256;

/// What a line of a script can be. An index that is larger than `u32::MAX` in the text is `u32::MAX` here.
#[derive(Clone, Copy, Debug, PartialEq, Eq)]
pub enum Line {
    /// A program asks the keeper.
    Call {
        who: u32,
        call: Call,
    },
    /// A program stores a word at a place, or loads one.
    Store {
        who: u32,
        v: u32,
        word: u32,
        x: u64,
    },
    Load {
        who: u32,
        v: u32,
        word: u32,
    },
    /// An access under a device's number, by the tables in memory.
    Read {
        d: u32,
        p: u32,
        word: u32,
    },
    Write {
        d: u32,
        p: u32,
        word: u32,
        x: u64,
    },
    /// The IOMMU keeps a page's mapping; a write by what it kept.
    Keep {
        d: u32,
        p: u32,
    },
    Kept {
        d: u32,
        p: u32,
        word: u32,
        x: u64,
    },
    /// The next `n` drains say no.
    Refuse {
        n: u64,
    },
    /// From now on the IOMMU and the devices do things of their own.
    Seed {
        s: u64,
    },
    /// Another machine.
    New,
}

impl Line {
    /// The line that these bytes write, without a line feed, if they write one.
    pub fn parse(bytes: &[u8]) -> Option<Line> {
        if bytes.len() > LONGEST {
            return None;
        }
        let mut words = Words(bytes.split(|b| *b == b' '));
        let line = match words.next()? {
            b"dev" => {
                let d = words.index()?;
                match words.next()? {
                    b"read" => Line::Read { d, p: words.index()?, word: words.index()? },
                    b"write" => Line::Write { d, p: words.index()?, word: words.index()?, x: words.exact()? },
                    _ => return None,
                }
            }
            b"keep" => Line::Keep { d: words.index()?, p: words.index()? },
            b"kept" => {
                let (d, p) = (words.index()?, words.index()?);
                if words.next()? != b"write" {
                    return None;
                }
                Line::Kept { d, p, word: words.index()?, x: words.exact()? }
            }
            b"no" => Line::Refuse { n: words.exact()? },
            b"seed" => Line::Seed { s: words.exact()? },
            b"new" => Line::New,
            first => {
                let who = index(first)?;
                match words.next()? {
                    b"load" => Line::Load { who, v: words.index()?, word: words.index()? },
                    b"store" => Line::Store { who, v: words.index()?, word: words.index()?, x: words.exact()? },
                    name => Line::Call { who, call: words.call(name)? },
                }
            }
        };
        words.0.next().is_none().then_some(line)
    }

    /// Whether something is printed for it.
    pub fn prints(&self) -> bool {
        !matches!(self, Line::Refuse { .. } | Line::Seed { .. } | Line::New)
    }
}

struct Words<I>(I);

impl<'a, I: Iterator<Item = &'a [u8]>> Words<I> {
    fn next(&mut self) -> Option<&'a [u8]> {
        self.0.next()
    }

    fn index(&mut self) -> Option<u32> {
        index(self.next()?)
    }

    fn exact(&mut self) -> Option<u64> {
        let n = number(self.next()?)?;
        u64::try_from(n).ok()
    }

    /// What follows the name of a call.
    fn call(&mut self, name: &[u8]) -> Option<Call> {
        Some(match name {
            b"get" => Call::Get { v: self.index()? },
            b"free" => Call::Free { v: self.index()? },
            b"give" => Call::Give { v: self.index()?, to: self.index()?, at: self.index()? },
            b"open" => Call::Open { d: self.index()? },
            b"close" => Call::Close { d: self.index()? },
            b"regs" => Call::Regs { d: self.index()?, v: self.index()? },
            b"lend" => Call::Lend {
                v: self.index()?,
                d: self.index()?,
                p: self.index()?,
                writes: match self.next()? {
                    b"w" => true,
                    b"r" => false,
                    _ => return None,
                },
            },
            b"recall" => Call::Recall { v: self.index()? },
            b"end" => Call::End { who: self.index()? },
            _ => return None,
        })
    }
}

/// The number that decimal digits write; what does not fit stands as the largest.
fn number(word: &[u8]) -> Option<u128> {
    if word.is_empty() || !word.iter().all(u8::is_ascii_digit) {
        return None;
    }
    Some(word.iter().fold(0u128, |n, b| n.saturating_mul(10).saturating_add(u128::from(b - b'0'))))
}

fn index(word: &[u8]) -> Option<u32> {
    Some(u32::try_from(number(word)?).unwrap_or(u32::MAX))
}

/// As a script writes it.
impl fmt::Display for Line {
    fn fmt(&self, f: &mut fmt::Formatter<'_>) -> fmt::Result {
        match *self {
            Line::Call { who, call } => write!(f, "{who} {call}"),
            Line::Store { who, v, word, x } => write!(f, "{who} store {v} {word} {x}"),
            Line::Load { who, v, word } => write!(f, "{who} load {v} {word}"),
            Line::Read { d, p, word } => write!(f, "dev {d} read {p} {word}"),
            Line::Write { d, p, word, x } => write!(f, "dev {d} write {p} {word} {x}"),
            Line::Keep { d, p } => write!(f, "keep {d} {p}"),
            Line::Kept { d, p, word, x } => write!(f, "kept {d} {p} write {word} {x}"),
            Line::Refuse { n } => write!(f, "no {n}"),
            Line::Seed { s } => write!(f, "seed {s}"),
            Line::New => f.write_str("new"),
        }
    }
}

#[cfg(test)]
mod tests {
    use super::*;

    #[test]
    fn what_is_printed_is_read_again() {
        for text in [
            "2 get 5",
            "2 free 5",
            "2 give 5 3 6",
            "2 open 2",
            "2 close 2",
            "2 regs 2 9",
            "2 lend 5 2 700 w",
            "2 lend 5 2 700 r",
            "2 recall 5",
            "0 end 2",
            "2 store 5 0 77",
            "2 load 5 0",
            "dev 1 read 700 0",
            "dev 1 write 700 0 88",
            "keep 1 700",
            "kept 1 700 write 0 88",
            "no 2",
            "seed 9",
            "new",
        ] {
            let line = Line::parse(text.as_bytes()).expect(text);
            assert_eq!(line.to_string(), text);
        }
    }

    #[test]
    fn large_numbers() {
        assert_eq!(Line::parse(b"2 load 99999999999 007"), Some(Line::Load { who: 2, v: u32::MAX, word: 7 }));
        assert_eq!(Line::parse(b"2 store 1 1 18446744073709551615"), Some(Line::Store { who: 2, v: 1, word: 1, x: u64::MAX }));
        assert_eq!(Line::parse(b"2 store 1 1 18446744073709551616"), None);
        assert_eq!(Line::parse(format!("no {}", "9".repeat(200)).as_bytes()), None);
    }

    #[test]
    fn what_is_no_line() {
        for text in [
            "",
            " ",
            "2",
            "2 get",
            "2 get  5",
            " 2 get 5",
            "2 get 5 ",
            "2 get 5 6",
            "2 Get 5",
            "2 get -5",
            "new 1",
            "2 lend 1 2 3 x",
            "kept 1 2 read 3 4",
            "+2 get 5",
            "2\tget 5",
            "2 get 5\r",
        ] {
            assert_eq!(Line::parse(text.as_bytes()), None, "{text:?}");
        }
        assert_eq!(Line::parse(format!("2 get {}5", "0".repeat(251)).as_bytes()), None);
        assert!(Line::parse(format!("2 get {}5", "0".repeat(249)).as_bytes()).is_some());
    }
}
