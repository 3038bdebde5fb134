//! What is not known after an `end` that was put off.

/// One of the ways in which things may stand. Where drains say no by themselves, an `end` that is answered *later* does not say which of
/// its devices were forgotten. They count as closing in the table; here stands which of them are shut instead.
#[derive(Clone, Copy, Debug, PartialEq, Eq, PartialOrd, Ord)]
pub struct World {
    /// A bit for each device.
    pub shut: u32,
    /// How many drains the script still tells to say no.
    pub nos: u64,
}

impl World {
    pub const START: World = World { shut: 0, nos: 0 };

    pub fn has_shut(self, d: u32) -> bool {
        self.shut >> d & 1 == 1
    }

    /// One drain more has been asked.
    pub fn drained(self) -> World {
        World { nos: self.nos.saturating_sub(1), ..self }
    }

    /// How things may stand after drains of all these devices, not all with yes. Only with a `seed` do drains say no unless told to.
    pub fn after_later(self, devices: &[u32], seeded: bool) -> Vec<World> {
        let told = usize::try_from(self.nos).unwrap_or(usize::MAX).min(devices.len());
        let (refused, free) = devices.split_at(told);
        let nos = self.nos - told as u64;
        let all: u32 = bits(free);
        if !seeded {
            return vec![World { shut: self.shut | all, nos }];
        }
        subsets(all).filter(|shut| !refused.is_empty() || *shut != all).map(|shut| World { shut: self.shut | shut, nos }).collect()
    }
}

fn bits(devices: &[u32]) -> u32 {
    devices.iter().fold(0, |set, d| set | 1 << d)
}

/// All subsets of a set of bits, the set itself first.
fn subsets(all: u32) -> impl Iterator<Item = u32> {
    let mut next = Some(all);
    std::iter::from_fn(move || {
        let now = next?;
        next = now.checked_sub(1).map(|less| less & all);
        Some(now)
    })
}

#[cfg(test)]
mod tests {
    use super::*;

    #[test]
    fn without_a_seed_there_is_one() {
        let world = World { shut: 1, nos: 1 };
        assert_eq!(world.after_later(&[2, 3], false), [World { shut: 0b1001, nos: 0 }]);
    }

    #[test]
    fn with_a_seed_not_all_said_yes() {
        let shut = |world: World| world.after_later(&[0, 2], true).iter().map(|w| w.shut).collect::<Vec<_>>();
        assert_eq!(shut(World::START), [0b100, 0b001, 0]);
        assert_eq!(shut(World { shut: 0, nos: 1 }), [0b100, 0]);
        assert_eq!(shut(World { shut: 0, nos: 5 }), [0]);
    }
}
