//! What is chosen by a seed.

const FACTOR: u64 = 6_364_136_223_846_793_005;
const STEP: u64 = 1_442_695_040_888_963_407;

/// A linear congruential generator of 64 bits, of which the upper 31 choose.
#[derive(Clone, Copy, Debug)]
pub(crate) struct Dice {
    state: u64,
}

impl Dice {
    pub(crate) fn from_seed(seed: u64) -> Dice {
        Dice { state: seed }
    }

    /// The next state.
    pub(crate) fn word(&mut self) -> u64 {
        self.state = self.state.wrapping_mul(FACTOR).wrapping_add(STEP);
        self.state
    }

    /// One of `n` numbers from 0 on.
    pub(crate) fn below(&mut self, n: u32) -> u32 {
        ((self.word() >> 33) as u32) % n
    }
}

#[cfg(test)]
mod tests {
    use super::*;

    #[test]
    fn draws() {
        let mut dice = Dice::from_seed(1);
        assert_eq!(dice.word(), 7_806_831_264_735_756_412);
        assert_eq!(dice.word(), 9_396_908_728_118_811_419);
        let mut same = Dice::from_seed(1);
        assert_eq!(same.below(11), (7_806_831_264_735_756_412u64 / 8_589_934_592 % 11) as u32);
    }
}
