//! Which scripts are played.

use protocol::{FEWEST_FRAMES, MOST_FRAMES};
use scripts::{Random, Script, Setup, Wish};

/// A script that is to be played: the number that chooses it, its machine, and what it is to be like.
#[derive(Clone, Debug)]
pub struct Plan {
    pub seed: u64,
    pub setup: Setup,
    pub wish: Wish,
}

impl Plan {
    fn random(random: &mut Random, size: &Size, left: u64, seeds: bool) -> Plan {
        let setup = Setup::random(random, size.frames);
        let lines = size.shortest + random.below(size.longest - size.shortest);
        let lines = u64::from(lines).min(left) as usize;
        Plan { seed: random.draw(), setup, wish: Wish { lines, seeds, news: size.news } }
    }

    pub fn script(&self) -> Script {
        Script::random(self.seed, self.setup.clone(), self.wish)
    }
}

/// How scripts are for machines of so many frames.
struct Size {
    frames: u32,
    /// How many of 100 lines.
    share: u64,
    shortest: u32,
    longest: u32,
    news: bool,
}

/// It takes long to begin on a large machine: scripts for it are few and long.
const SIZES: [Size; 3] = [
    Size { frames: FEWEST_FRAMES, share: 60, shortest: 20, longest: 1_500, news: true },
    Size { frames: 512, share: 30, shortest: 500, longest: 4_000, news: true },
    Size { frames: MOST_FRAMES, share: 10, shortest: 20_000, longest: 30_000, news: false },
];

/// Scripts that have so many lines together, chosen by a number. Every other one has seeds.
pub fn plans(lines: u64, seed: u64) -> impl Iterator<Item = Plan> {
    let mut random = Random::new(seed);
    let mut lefts = SIZES.map(|size| lines / 100 * size.share);
    lefts[0] = lines - lefts[1] - lefts[2];
    SIZES.iter().zip(lefts).flat_map(move |(size, mut left)| {
        let mut random = Random::new(random.draw());
        let mut seeds = false;
        std::iter::from_fn(move || {
            if left == 0 {
                return None;
            }
            seeds = !seeds;
            let plan = Plan::random(&mut random, size, left, seeds);
            left -= plan.wish.lines as u64;
            Some(plan)
        })
    })
}

#[cfg(test)]
mod tests {
    use super::plans;

    #[test]
    fn as_many_lines_as_asked() {
        for lines in [0, 1, 99, 123_457] {
            assert_eq!(plans(lines, 1).map(|plan| plan.wish.lines as u64).sum::<u64>(), lines);
        }
    }

    #[test]
    fn the_same_seed_plans_the_same() {
        let scripts = |seed| plans(3_000, seed).map(|plan| plan.script().bytes()).collect::<Vec<_>>();
        assert_eq!(scripts(5), scripts(5));
        assert_ne!(scripts(5), scripts(6));
    }
}
