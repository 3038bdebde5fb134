//! Who writes a script.

use crate::edges::{with_edge, with_noughts};
use crate::moods::{Act, Mood};
use crate::nonsense::nonsense;
use crate::picks::Picks;
use crate::pools::Pools;
use crate::random::Random;
use crate::script::{Text, Wish};
use crate::setup::Setup;
use protocol::Line;
use second::{Expect, Second};

/// Writes a script line by line, and goes along with the second keeper.
pub struct Author {
    random: Random,
    setup: Setup,
    wish: Wish,
    keeper: Second,
    pools: Pools,
    mood: Mood,
    left: u32,
    /// The last load that looked for what a device wrote by itself.
    look: Option<Text>,
}

impl Author {
    pub fn new(mut random: Random, setup: Setup, wish: Wish) -> Author {
        let keeper = Second::new(setup.frames, &setup.devices);
        let pools = Pools::random(&mut random, &setup);
        let (mood, left) = Mood::random(&mut random, setup.frames);
        Author { random, setup, wish, keeper, pools, mood, left, look: None }
    }

    /// The keeper, before the next line.
    pub fn keeper(&self) -> &Second {
        &self.keeper
    }

    /// The next line.
    pub fn write(&mut self) -> Text {
        self.change_mood();
        let text = self.text();
        let came = match self.keeper.expect(&text) {
            Expect::OneOf(some) => Some(self.random.pick(&some)),
            other => other.likely(),
        };
        // What may come is allowed.
        let _ = self.keeper.follow(&text, came);
        if text == b"new" {
            self.pools = Pools::random(&mut self.random, &self.setup);
        }
        text
    }

    fn change_mood(&mut self) {
        self.left = self.left.saturating_sub(1);
        if self.mood == Mood::Filling && self.keeper.idle() == 0 {
            (self.mood, self.left) = (Mood::Full, 30 + self.random.below(60));
        } else if self.left == 0 {
            (self.mood, self.left) = Mood::random(&mut self.random, self.setup.frames);
            if self.random.one_in(5) {
                self.pools = Pools::random(&mut self.random, &self.setup);
            }
        }
    }

    fn text(&mut self) -> Text {
        if self.keeper.is_lost() || self.wish.news && self.random.one_in(400) {
            return b"new".to_vec();
        }
        let rarely = if self.keeper.is_seeded() { 400 } else { 100 };
        if self.wish.seeds && self.random.one_in(rarely) {
            let s = self.picks().x();
            return Line::Seed { s }.to_string().into_bytes();
        }
        if self.keeper.is_seeded() && self.random.one_in(8) {
            return self.look();
        }
        let in_doubt = self.keeper.worlds() > 1 && self.random.percent(50);
        let mood = if in_doubt { Mood::Doubting } else { self.mood };
        let ends = self.keeper.is_seeded() && !in_doubt && self.random.one_in(30);
        let act = if ends { Act::End } else { mood.act(&mut self.random) };
        let act = self.picks().fitting(act);
        let full = matches!(self.mood, Mood::Filling | Mood::Full);
        let text = self.picks().line(act, full).to_string().into_bytes();
        match self.random.below(100) {
            0..3 => with_edge(&mut self.random, &text, self.setup.devices.len()),
            3 => with_noughts(&mut self.random, &text),
            4..6 => nonsense(&mut self.random, &text),
            _ => text,
        }
    }

    /// Looks for what a device may have written by itself, or looks once more at the same word.
    fn look(&mut self) -> Text {
        if let Some(again) = self.look.take().filter(|_| self.random.one_in(3)) {
            return again;
        }
        let text = self.picks().look().to_string().into_bytes();
        self.look = Some(text.clone());
        text
    }

    fn picks(&mut self) -> Picks<'_> {
        Picks { random: &mut self.random, pools: &self.pools, keeper: &self.keeper }
    }
}
