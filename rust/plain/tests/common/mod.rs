//! Random scripts: calls that mostly can be done, and what goes against them.

use protocol::{Call, Device, Line};

/// Devices 0 and 1 are of one group and have two drivers.
pub const DEVICES: [Device; 4] =
    [Device { group: 0, driver: 1 }, Device { group: 0, driver: 2 }, Device { group: 1, driver: 2 }, Device { group: 2, driver: 1 }];

pub struct Random(u64);

impl Random {
    /// One of `n` numbers.
    fn below(&mut self, n: u32) -> u32 {
        self.0 = self.0.wrapping_mul(6_364_136_223_846_793_005).wrapping_add(1_442_695_040_888_963_407);
        ((self.0 >> 33) % u64::from(n)) as u32
    }

    fn one<T: Copy>(&mut self, of: &[T]) -> T {
        of[self.below(of.len() as u32) as usize]
    }

    fn call(&mut self, places: u32) -> Line {
        let d = self.below(4);
        let who = if self.below(10) == 0 { self.below(3) } else { DEVICES[d as usize].driver };
        let (v, at) = (self.below(places), self.below(places));
        let p = self.one(&[0, 1, 2, 512, 513, 262_143, 262_144]);
        let call = match self.below(32) {
            0..8 => Call::Get { v },
            8..10 => Call::Free { v },
            10..12 => Call::Give { v, to: self.below(3), at },
            12..15 => Call::Open { d },
            15 => Call::Close { d },
            16 => Call::Regs { d, v },
            17..25 => Call::Lend { v, d, p, writes: self.below(3) > 0 },
            25..31 => Call::Recall { v },
            _ => return Line::Call { who: 0, call: Call::End { who: self.below(4) } },
        };
        Line::Call { who, call }
    }

    fn line(&mut self, places: u32) -> Line {
        let (who, v) = (1 + self.below(2), self.below(places));
        let (d, p, word) = (self.below(4), self.one(&[0, 1, 2, 512]), self.one(&[0, 1, 511]));
        let x = u64::from(self.below(1000));
        match self.below(40) {
            0..24 => self.call(places),
            24..27 => Line::Load { who, v, word },
            27..30 => Line::Store { who, v, word, x },
            30..32 => Line::Read { d, p, word },
            32..34 => Line::Write { d, p, word, x },
            34..36 => Line::Keep { d, p },
            36..38 => Line::Kept { d, p, word, x },
            _ => Line::Refuse { n: 1 + u64::from(self.below(3)) },
        }
    }
}

/// A script of so many lines after its seed, at the first places of each program.
pub fn script(seed: u64, lines: usize, places: u32) -> Vec<Line> {
    let mut random = Random(seed);
    let mut script = vec![Line::Seed { s: seed }];
    script.extend((0..lines).map(|_| random.line(places)));
    script
}
