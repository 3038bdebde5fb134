//! The meaning, written down literally: every state that may be, with a frame for each page and table, and every moment at which a call
//! may take effect. It only serves small machines and short logs.

mod state;

pub use state::{State, Use};

use explained::Shape;
use protocol::{Answer, Call, Device, Event};
use state::{Dev, Loan, WORDS};
use std::collections::{BTreeMap, BTreeSet};

#[derive(Clone, Copy, Debug, PartialEq, Eq)]
enum Now {
    Quiet,
    Under(u32, Call),
    Over(u32, Call, Answer),
}

/// All states that explain a log.
#[derive(Clone)]
pub struct Reference {
    devices: Vec<Device>,
    states: Vec<(State, Now)>,
}

impl Reference {
    pub fn new(shape: &Shape) -> Reference {
        let frames = shape.frames as usize;
        let mut what = vec![Use::Idle; frames];
        what[0] = Use::House;
        let start = State {
            what,
            word: vec![[0; WORDS]; frames],
            dev: vec![Dev::Shut; shape.devices.len()],
            slots: BTreeSet::new(),
            regs: BTreeMap::new(),
            drained: BTreeSet::new(),
            undrained: BTreeSet::new(),
        };
        Reference { devices: shape.devices.clone(), states: vec![(start, Now::Quiet)] }
    }

    pub fn states(&self) -> impl ExactSizeIterator<Item = &State> {
        self.states.iter().map(|(s, _)| s)
    }

    /// The answers to the call under way that some state has.
    pub fn answers(&self) -> Vec<Answer> {
        let over = |n: &Now| if let Now::Over(_, _, a) = n { Some(*a) } else { None };
        self.states.iter().filter_map(|(_, n)| over(n)).collect()
    }

    /// Whether the event is explained; if not, all is as if it had not come.
    pub fn event(&mut self, event: &Event) -> bool {
        let next: Vec<(State, Now)> = self.states.iter().filter_map(|(s, n)| self.step(s, *n, event)).collect();
        if next.is_empty() {
            return false;
        }
        self.states = self.closed(next);
        true
    }

    /// With what may happen silently: leaving, taking effect, being refused.
    fn closed(&self, states: Vec<(State, Now)>) -> Vec<(State, Now)> {
        let mut all: BTreeSet<(State, String)> = BTreeSet::new();
        let mut open = states;
        let mut found = Vec::new();
        while let Some((s, n)) = open.pop() {
            if !all.insert((s.clone(), format!("{n:?}"))) {
                continue;
            }
            if let Now::Under(c, k) = n {
                match self.why(&s, c, k) {
                    0 => {
                        open.push((self.loosens(&s, c, k), n));
                        open.extend(self.acts(&s, c, k).into_iter().map(|(t, a)| (t, Now::Over(c, k, a))));
                    }
                    why => open.push((s.clone(), Now::Over(c, k, Answer::No(why)))),
                }
            }
            found.push((s, n));
        }
        found
    }

    fn step(&self, s: &State, n: Now, event: &Event) -> Option<(State, Now)> {
        let mut t = s.clone();
        let (holds, m) = match *event {
            Event::Asked { who, call } => {
                (t.drained, t.undrained) = (BTreeSet::new(), BTreeSet::new());
                (n == Now::Quiet, Now::Under(who, call))
            }
            Event::Told { who, call, answer } => {
                let later = answer != Answer::Later || self.still_later(s, who, call);
                (n == Now::Over(who, call, answer) && later, Now::Quiet)
            }
            Event::Loaded { who, v, word, x } => (n == Now::Quiet && s.frame_of(who, v).is_some_and(|f| s.word[f][word as usize] == x), n),
            Event::Stored { who, v, word, x } => {
                let f = s.frame_of(who, v)?;
                t.word[f][word as usize] = x;
                (n == Now::Quiet, n)
            }
            Event::Faulted { who, v } => (n == Now::Quiet && !s.taken(who, v), n),
            Event::Poked { who, v, d } => (n == Now::Quiet && s.regs.get(&(who, v)) == Some(&d), n),
            Event::Took { d, p, frame, word, x } => {
                let f = frame as usize;
                (f < s.what.len() && s.what[f].loan().reaches(d, p, false) && s.word[f][word as usize] == x, n)
            }
            Event::Put { d, p, frame, word, x } => {
                let f = frame as usize;
                let holds = f < s.what.len() && s.what[f].loan().reaches(d, p, true);
                if holds {
                    t.word[f][word as usize] = x;
                }
                (holds, n)
            }
            Event::Missed { d, p, writes } => {
                (!s.what.iter().any(|u| matches!(u.loan(), Loan::Lent(..)) && u.loan().reaches(d, p, writes)), n)
            }
            Event::Drained { d, said } => {
                if said {
                    t.drained.insert(d)
                } else {
                    t.undrained.insert(d)
                };
                (true, n)
            }
        };
        holds.then_some((t, m))
    }

    fn why(&self, s: &State, c: u32, k: Call) -> u32 {
        let first = |reasons: &[(bool, u32)]| reasons.iter().find(|(b, _)| *b).map_or(0, |(_, n)| *n);
        let none = |d: u32| d as usize >= self.devices.len();
        let dev = |d: u32| s.dev[d as usize];
        let own = |v| s.frame_of(c, v).is_none();
        let away = |v| s.loan(c, v) != Loan::Home;
        match k {
            Call::Get { v } => first(&[(v >= 1024, 1), (s.taken(c, v), 3), (!s.what.contains(&Use::Idle), 7)]),
            Call::Free { v } => first(&[(v >= 1024, 1), (own(v), 2), (away(v), 4)]),
            Call::Give { v, to, at } => first(&[(v >= 1024 || to >= 32 || at >= 1024, 1), (own(v), 2), (s.taken(to, at), 3), (away(v), 4)]),
            Call::Open { d } | Call::Close { d } | Call::Regs { d, .. } | Call::Lend { d, .. } if none(d) => 1,
            Call::Open { d } => {
                let Device { group, driver } = self.devices[d as usize];
                let foreign = (0..s.dev.len()).any(|e| self.devices[e].group == group && s.dev[e].owner().is_some_and(|w| w != c));
                first(&[(driver != c, 5), (dev(d) != Dev::Shut || foreign, 6), (!s.what.contains(&Use::Idle), 7)])
            }
            Call::Close { d } => first(&[(dev(d).owner() != Some(c), 5)]),
            Call::Regs { d, v } => first(&[(v >= 1024, 1), (s.taken(c, v), 3), (dev(d) != Dev::Opened(c), 5)]),
            Call::Lend { v, d, p, .. } => first(&[
                (v >= 1024 || p >= 262_144, 1),
                (own(v), 2),
                (s.what.iter().any(|u| u.loan().is_at(d, p)), 3),
                (away(v), 4),
                (dev(d) != Dev::Opened(c), 5),
                (!s.slots.contains(&(d, p / 512)) && !s.what.contains(&Use::Idle), 7),
            ]),
            Call::Recall { v } => first(&[(v >= 1024, 1), (own(v), 2), (!away(v), 4)]),
            Call::End { who } => first(&[(who >= 32, 1), (c != 0, 8)]),
        }
    }

    fn loosens(&self, s: &State, c: u32, k: Call) -> State {
        let mut t = s.clone();
        match k {
            Call::Close { d } => t.map_loans(|l| if l.device() == Some(d) { l.leaving() } else { l }),
            Call::Recall { v } => {
                let f = s.frame_of(c, v).expect("not refused");
                t.what[f] = Use::Of(c, v, s.loan(c, v).leaving());
            }
            Call::End { who } => {
                let held = s.held(who);
                t.map_loans(|l| if l.device().is_some_and(|d| held.contains(&d)) { l.leaving() } else { l });
            }
            _ => {}
        }
        t
    }

    /// What the call may come to now, with each idle frame that it may take.
    fn acts(&self, s: &State, c: u32, k: Call) -> Vec<(State, Answer)> {
        let idle = || (0..s.what.len()).filter(|f| s.what[*f] == Use::Idle);
        let mut t = s.clone();
        match k {
            Call::Get { v } => {
                return idle()
                    .map(|f| {
                        let mut t = s.clone();
                        t.set(f, Use::Of(c, v, Loan::Home));
                        (t, Answer::Done)
                    })
                    .collect();
            }
            Call::Open { d } => {
                t.dev[d as usize] = Dev::Opened(c);
                return idle().map(|f| (with(&t, f, Use::TableOf(d)), Answer::Done)).collect();
            }
            Call::Lend { v, d, p, writes } => {
                let page = s.frame_of(c, v).expect("not refused");
                t.what[page] = Use::Of(c, v, Loan::Lent(d, p, writes));
                if t.slots.insert((d, p / 512)) {
                    return idle().map(|f| (with(&t, f, Use::TableOf(d)), Answer::Done)).collect();
                }
            }
            Call::Free { v } => t.set(s.frame_of(c, v).expect("not refused"), Use::Idle),
            Call::Give { v, to, at } => t.what[s.frame_of(c, v).expect("not refused")] = Use::Of(to, at, Loan::Home),
            Call::Regs { d, v } => {
                t.regs.insert((c, v), d);
            }
            Call::Close { .. } | Call::Recall { .. } | Call::End { .. } => return self.settles(s, c, k).into_iter().collect(),
        }
        vec![(t, Answer::Done)]
    }

    fn settles(&self, s: &State, c: u32, k: Call) -> Option<(State, Answer)> {
        let mut t = s.clone();
        let done = match k {
            Call::Close { d } => {
                s.heard(d).then_some(())?;
                let yes = s.drained.contains(&d);
                if yes {
                    t.shut(d)
                } else {
                    t.shutting(d)
                }
                yes
            }
            Call::Recall { v } => {
                let f = s.frame_of(c, v).expect("not refused");
                let loan = s.loan(c, v);
                let d = loan.device().expect("not refused");
                s.heard(d).then_some(())?;
                let yes = s.drained.contains(&d);
                t.what[f] = Use::Of(c, v, if yes { Loan::Home } else { loan.leaving() });
                yes
            }
            Call::End { who } => {
                let held = s.held(who);
                held.iter().all(|d| s.heard(*d)).then_some(())?;
                for d in &held {
                    if s.drained.contains(d) { t.shut(*d) } else { t.shutting(*d) }
                }
                let yes = held.iter().all(|d| s.drained.contains(d));
                for f in 0..t.what.len() {
                    if yes && matches!(t.what[f], Use::Of(w, _, _) if w == who) {
                        t.set(f, Use::Idle);
                    }
                }
                yes
            }
            _ => unreachable!("it waits for nothing"),
        };
        Some((t, if done { Answer::Done } else { Answer::Later }))
    }

    /// Whether the call, done again now, would still be later.
    fn still_later(&self, s: &State, c: u32, k: Call) -> bool {
        match k {
            Call::Close { d } => !s.drained.contains(&d),
            Call::Recall { v } => s.loan(c, v).device().is_some_and(|d| !s.drained.contains(&d)),
            Call::End { who } => !s.held(who).iter().all(|d| s.drained.contains(d)),
            _ => false,
        }
    }
}

fn with(s: &State, f: usize, u: Use) -> State {
    let mut t = s.clone();
    t.set(f, u);
    t
}
