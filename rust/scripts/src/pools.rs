//! The few numbers that a script is about, so that its lines meet.

use crate::random::Random;
use crate::setup::Setup;
use protocol::{PAGES, PLACES};

/// Programs, places and pages of devices.
#[derive(Clone, Debug)]
pub struct Pools {
    pub programs: Vec<u32>,
    pub places: Vec<u32>,
    pub pages: Vec<u32>,
}

impl Pools {
    pub fn random(random: &mut Random, setup: &Setup) -> Pools {
        let mut programs: Vec<u32> = setup.devices.iter().map(|device| device.driver).collect();
        programs.extend([0, random.below(32)]);
        programs.sort_unstable();
        programs.dedup();
        let places = random.pick(&[3, 8, 20, 60]);
        let places = (0..places).map(|_| place(random)).collect();
        let blocks: Vec<u32> = (0..random.pick(&[1, 2, 4, 12])).map(|_| block(random)).collect();
        let pages = random.pick(&[3, 8, 20, 60]);
        let pages = (0..pages).map(|_| random.pick(&blocks) * 512 + entry(random)).collect();
        Pools { programs, places, pages }
    }
}

fn place(random: &mut Random) -> u32 {
    match random.below(12) {
        0 => 0,
        1 => PLACES - 1,
        _ => random.below(PLACES),
    }
}

fn block(random: &mut Random) -> u32 {
    match random.below(6) {
        0 => 0,
        1 => PAGES / 512 - 1,
        _ => random.below(PAGES / 512),
    }
}

fn entry(random: &mut Random) -> u32 {
    match random.below(6) {
        0 => 0,
        1 => 511,
        _ => random.below(512),
    }
}
