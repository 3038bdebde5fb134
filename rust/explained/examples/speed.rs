//! How many events a second are checked, on a long log of 32 programs and 32 devices: `cargo run --release -p explained --example speed`.

use explained::{Shape, check};
use protocol::{Answer, Call, Device, Event, MOST_DEVICES, MOST_FRAMES, PAGES};
use std::time::Instant;

/// How many pages each program has.
const EACH: u32 = 1000;

fn main() {
    let devices = (0..MOST_DEVICES).map(|d| Device { group: d, driver: d }).collect();
    let shape = Shape { frames: MOST_FRAMES, devices };
    let mut log = Log::default();
    for round in 0..24 {
        for who in 0..MOST_DEVICES {
            log.turn(round, who);
        }
    }
    let start = Instant::now();
    let result = check(&shape, &log.events);
    let took = start.elapsed();
    match result {
        Ok(()) => {
            let events = log.events.len();
            println!("{events} events in {took:.2?}: {:.1} million a second", events as f64 / took.as_secs_f64() / 1e6);
        }
        Err(why) => println!("{why}: {}", log.events[why.at]),
    }
}

#[derive(Default)]
struct Log {
    events: Vec<Event>,
}

impl Log {
    /// A program opens its device, gets pages, lends them, takes them back and is ended, or frees them and closes the device.
    fn turn(&mut self, round: u32, who: u32) {
        let d = who;
        self.done(who, Call::Open { d });
        self.done(who, Call::Regs { d, v: EACH });
        for v in 0..EACH {
            self.done(who, Call::Get { v });
            self.events.push(Event::Stored { who, v, word: v % 512, x: u64::from(round) });
        }
        for v in 0..EACH {
            let (p, frame) = (v * 2_617 % PAGES, 1 + who * EACH + v);
            let word = v % 512;
            self.done(who, Call::Lend { v, d, p, writes: v % 3 > 0 });
            for x in 0..8 {
                self.events.push(Event::Took { d, p, frame, word: (word + 7) % 512, x: 0 });
                if v % 3 > 0 {
                    self.events.push(Event::Put { d, p, frame, word, x });
                    self.events.push(Event::Loaded { who, v, word, x });
                }
                self.events.push(Event::Missed { d, p: p + 1, writes: x % 2 == 0 });
                self.events.push(Event::Poked { who, v: EACH, d });
            }
            self.settle(who, Call::Recall { v }, d, v % 4 > 0);
        }
        if round.is_multiple_of(2) {
            for v in 0..EACH {
                self.done(who, Call::Free { v });
            }
            self.settle(who, Call::Close { d }, d, true);
        } else {
            self.settle(0, Call::End { who }, d, true);
        }
        self.events.push(Event::Faulted { who, v: 0 });
    }

    fn done(&mut self, who: u32, call: Call) {
        self.events.push(Event::Asked { who, call });
        self.events.push(Event::Told { who, call, answer: Answer::Done });
    }

    /// A call that waits for d: done at once, or after a later.
    fn settle(&mut self, who: u32, call: Call, d: u32, at_once: bool) {
        let answers = if at_once { [true].iter() } else { [false, true].iter() };
        for said in answers.copied() {
            let answer = if said { Answer::Done } else { Answer::Later };
            self.events.extend([Event::Asked { who, call }, Event::Drained { d, said }, Event::Told { who, call, answer }]);
        }
    }
}
