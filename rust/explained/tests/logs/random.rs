//! Random events, heard by the checker and by the meaning written down literally.

use crate::reference::{Reference, State, Use};
use explained::{Checker, Reason, Shape};
use protocol::{Answer, Call, Device, Event};

struct Dice(u64);

impl Dice {
    fn below(&mut self, n: u32) -> u32 {
        self.0 = self.0.wrapping_mul(6_364_136_223_846_793_005).wrapping_add(1_442_695_040_888_963_407);
        ((self.0 >> 33) % u64::from(n)) as u32
    }

    fn one_in(&mut self, n: u32) -> bool {
        self.below(n) == 0
    }

    fn pick<T: Copy>(&mut self, from: &[T]) -> T {
        from[self.below(from.len() as u32) as usize]
    }

    fn page(&mut self) -> u32 {
        self.pick(&[0, 1, 512])
    }

    fn some(&mut self, of: impl Iterator<Item = u32>) -> Option<u32> {
        let all: Vec<u32> = of.collect();
        (!all.is_empty()).then(|| self.pick(&all))
    }

    /// A call by anybody, about anything.
    fn any_call(&mut self) -> (u32, Call) {
        let (v, d, p, writes) = (self.below(3), self.below(3), self.page(), !self.one_in(3));
        let call = match self.below(9) {
            0 => Call::Get { v },
            1 => Call::Free { v },
            2 => Call::Give { v, to: self.below(2), at: self.below(3) },
            3 => Call::Open { d },
            4 => Call::Close { d },
            5 => Call::Regs { d, v },
            6 => Call::Lend { v, d, p, writes },
            7 => Call::Recall { v },
            _ => Call::End { who: self.below(2) },
        };
        (self.below(2), call)
    }

    /// Mostly one that is likely not to be refused.
    fn call(&mut self, shape: &Shape, state: &State) -> (u32, Call) {
        let (who, mut call) = self.any_call();
        if self.one_in(4) {
            return (who, call);
        }
        if matches!(call, Call::End { .. } | Call::Close { .. }) && !self.one_in(4) {
            call = Call::Lend { v: 0, d: self.below(2), p: self.page(), writes: !self.one_in(3) };
        }
        if let Call::End { .. } = call {
            return (0, call);
        }
        let page = self.some((0..state.what.len() as u32).filter(|f| matches!(state.what[*f as usize], Use::Of(..))));
        let held = self.some((0..state.dev.len() as u32).filter(|d| state.dev[*d as usize].owner().is_some()));
        let by = |d: Option<u32>| d.and_then(|d| state.dev[d as usize].owner()).unwrap_or(who);
        match &mut call {
            Call::Open { d } => return (shape.devices.get(*d as usize).map_or(who, |device| device.driver), call),
            Call::Close { d } | Call::Regs { d, .. } => {
                *d = held.unwrap_or(*d);
                return (by(held), call);
            }
            _ => {}
        }
        let Some(Use::Of(c, u, _)) = page.map(|f| state.what[f as usize]) else { return (who, call) };
        match &mut call {
            Call::Free { v } | Call::Give { v, .. } | Call::Recall { v } => *v = u,
            Call::Lend { v, d, .. } => {
                *d = held.unwrap_or(*d);
                // Likely a page of whoever has the device.
                let own = |f: &u32| matches!(state.what[*f as usize], Use::Of(w, _, _) if w == by(held));
                let own = self.some((0..state.what.len() as u32).filter(own));
                *v = u;
                if let Some(Use::Of(c, u, _)) = own.map(|f| state.what[f as usize]) {
                    *v = u;
                    return (c, call);
                }
            }
            _ => return (who, call),
        }
        (c, call)
    }

    fn answer(&mut self, reference: &Reference) -> Answer {
        let right = reference.answers();
        if !right.is_empty() && !self.one_in(4) {
            return self.pick(&right);
        }
        match self.below(3) {
            0 => Answer::Done,
            1 => Answer::Later,
            _ => Answer::No(1 + self.below(8)),
        }
    }

    /// An access or a miss; mostly where some state has a page.
    fn device(&mut self, state: &State) -> Event {
        let (mut d, mut p, mut frame) = (self.below(2), self.page(), self.below(5));
        let away = self.some((0..state.what.len() as u32).filter(|f| state.what[*f as usize].loan().mapping().is_some()));
        if let Some(f) = away
            && let Some((e, q, _)) = state.what[f as usize].loan().mapping()
        {
            frame = if self.one_in(3) { frame } else { f };
            d = if self.one_in(8) { d } else { e };
            p = if self.one_in(6) { p } else { q };
        }
        let (word, x) = self.word(state, frame);
        match self.below(5) {
            0 | 1 => Event::Took { d, p, frame, word, x },
            2 | 3 => Event::Put { d, p, frame, word, x: u64::from(self.below(3)) },
            _ => Event::Missed { d, p, writes: self.one_in(2) },
        }
    }

    fn word(&mut self, state: &State, frame: u32) -> (u32, u64) {
        let (word, x) = (self.below(2), u64::from(self.below(3)));
        match state.word.get(frame as usize) {
            Some(words) if !self.one_in(3) => (word, words[word as usize]),
            _ => (word, x),
        }
    }

    fn program(&mut self, state: &State) -> Event {
        let (mut who, mut v) = (self.below(2), self.below(3));
        let mut frame = 0;
        let page = self.some((0..state.what.len() as u32).filter(|f| matches!(state.what[*f as usize], Use::Of(..))));
        if let Some(f) = page
            && let Use::Of(c, u, _) = state.what[f as usize]
            && !self.one_in(3)
        {
            (who, v, frame) = (c, u, f);
        }
        let (word, x) = self.word(state, frame);
        match self.below(5) {
            0 | 1 => Event::Loaded { who, v, word, x },
            2 => Event::Stored { who, v, word, x: u64::from(self.below(3)) },
            3 => Event::Faulted { who, v },
            _ => match state.regs.first_key_value() {
                Some((&(who, v), &d)) if !self.one_in(4) => Event::Poked { who, v, d },
                _ => Event::Poked { who, v, d: self.below(2) },
            },
        }
    }

    fn event(&mut self, shape: &Shape, under_way: Option<(u32, Call)>, reference: &Reference) -> Event {
        let nth = self.below(reference.states().len() as u32) as usize;
        let state = reference.states().nth(nth).expect("there is one");
        match (under_way, self.below(12)) {
            (Some((who, call)), 0..=3) => Event::Told { who, call, answer: self.answer(reference) },
            (Some(_), 4 | 5) => Event::Drained { d: self.below(2), said: self.one_in(2) },
            (None, 0..=4) | (Some(_), 6) => {
                let (who, call) = self.call(shape, state);
                Event::Asked { who, call }
            }
            (None, 5..=7) | (Some(_), 7) => self.program(state),
            _ => self.device(state),
        }
    }
}

/// How many events both explained, neither did, and only the checker did, for want of frames.
#[derive(Default, Debug)]
struct Tally {
    both: u32,
    neither: u32,
    frames: u32,
}

fn play(seed: u64, frames: u32, events: u32, tally: &mut Tally) {
    let mut dice = Dice(seed);
    let group = dice.below(2);
    let driver = if dice.one_in(4) { 0 } else { 1 };
    let shape = Shape { frames, devices: vec![Device { group: 0, driver: 1 }, Device { group, driver }] };
    let (mut checker, mut reference) = (Checker::new(&shape), Reference::new(&shape));
    let mut under_way = None;
    let mut log = Vec::new();
    for _ in 0..events {
        let event = dice.event(&shape, under_way, &reference);
        let before = (checker.clone(), reference.clone());
        let (heard, right) = (checker.event(&event), reference.event(&event));
        let said = || format!("seed {seed}, {shape:?}, {log:#?}, {event}: {heard:?}");
        match (heard, right) {
            (Ok(()), true) => {
                tally.both += 1;
                match event {
                    Event::Asked { who, call } => under_way = Some((who, call)),
                    Event::Told { .. } => under_way = None,
                    _ => {}
                }
                log.push(event);
            }
            (Err(_), false) => tally.neither += 1,
            // The rules on drains are the page's, and the meaning has none.
            (Err(Reason::DrainedBetweenCalls | Reason::DrainedInVain | Reason::DrainedTwice), true) => (checker, reference) = before,
            // Some frame would do, and this one is only known not to by what was not named.
            (Ok(()), false) => {
                let other = (1..frames).any(|f| before.1.clone().event(&in_frame(event, f)));
                assert!(other, "{}", said());
                tally.frames += 1;
                (checker, reference) = before;
            }
            (Err(_), true) => panic!("{}", said()),
        }
    }
}

fn in_frame(event: Event, frame: u32) -> Event {
    match event {
        Event::Took { d, p, word, x, .. } => Event::Took { d, p, frame, word, x },
        Event::Put { d, p, word, x, .. } => Event::Put { d, p, frame, word, x },
        other => other,
    }
}

#[test]
fn as_the_meaning_has_it() {
    let mut tally = Tally::default();
    for seed in 0..90 {
        play(seed, 4 + (seed % 3) as u32, 1500, &mut tally);
    }
    println!("{tally:?}");
    assert!(tally.both > 20_000 && tally.frames * 200 < tally.both, "{tally:?}");
}
