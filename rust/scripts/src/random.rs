//! Numbers that look random, all chosen by the first.

/// A generator of 64-bit numbers: a counter, mixed.
#[derive(Clone, Debug)]
pub struct Random(u64);

impl Random {
    pub fn new(seed: u64) -> Random {
        Random(seed)
    }

    pub fn draw(&mut self) -> u64 {
        self.0 = self.0.wrapping_add(0x9e37_79b9_7f4a_7c15);
        let mixed = (self.0 ^ self.0 >> 30).wrapping_mul(0xbf58_476d_1ce4_e5b9);
        let mixed = (mixed ^ mixed >> 27).wrapping_mul(0x94d0_49bb_1331_11eb);
        mixed ^ mixed >> 31
    }

    /// A number below n, which is not 0.
    pub fn below(&mut self, n: u32) -> u32 {
        (((self.draw() >> 32) * u64::from(n)) >> 32) as u32
    }

    /// True in so many of 100 cases.
    pub fn percent(&mut self, chance: u32) -> bool {
        self.below(100) < chance
    }

    /// True in one of n cases.
    pub fn one_in(&mut self, n: u32) -> bool {
        self.below(n) == 0
    }

    /// One of some, of which there is one at least.
    pub fn pick<T: Copy>(&mut self, some: &[T]) -> T {
        some[self.below(some.len() as u32) as usize]
    }

    /// One of some, each as often as its weight says.
    pub fn weighted<T: Copy>(&mut self, some: &[(T, u32)]) -> T {
        let mut left = self.below(some.iter().map(|(_, weight)| weight).sum());
        for (one, weight) in some {
            if left < *weight {
                return *one;
            }
            left -= weight;
        }
        some[0].0
    }
}

#[cfg(test)]
mod tests {
    use super::Random;

    #[test]
    fn the_same_seed_draws_the_same() {
        let mut some = Random::new(7);
        let mut same = Random::new(7);
        assert!((0..100).all(|_| some.draw() == same.draw()));
    }

    #[test]
    fn weights() {
        let mut random = Random::new(1);
        let heads = (0..1000).filter(|_| random.weighted(&[(true, 1), (false, 9)])).count();
        assert!((50..200).contains(&heads), "{heads}");
        assert!((0..1000).all(|_| random.weighted(&[(true, 1), (false, 0)])));
    }
}
