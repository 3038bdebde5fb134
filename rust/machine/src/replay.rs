//! What a keeper asks and answers, written down, and done again without it: that is the machine's own share.

use crate::ask::folded;
use crate::{Ask, Board, Keeper, Machine, perform};
use protocol::{Answer, Call};

/// A keeper, and all that it asks and answers.
pub struct Recorder<K> {
    keeper: K,
    replay: Replay,
}

/// Asks and answers in the order of the calls, whatever these are. It begins anew with each machine.
#[derive(Clone, Debug, Default, PartialEq, Eq)]
pub struct Replay {
    asks: Vec<Ask>,
    /// For the setting up and for each call: where its asks end, and its answer.
    ends: Vec<(usize, Answer)>,
    next: usize,
}

impl<K: Keeper> Recorder<K> {
    pub fn new(keeper: K) -> Recorder<K> {
        Recorder { keeper, replay: Replay::default() }
    }

    /// What was asked and answered since the last machine was set up.
    pub fn replay(self) -> Replay {
        self.replay
    }
}

impl<K: Keeper> Keeper for Recorder<K> {
    fn boot(&mut self, m: &mut impl Machine) {
        let mut heard = Heard { m, asks: Vec::new() };
        self.keeper.boot(&mut heard);
        self.replay = Replay::default();
        self.replay.add(&heard.asks, Answer::Done);
    }

    fn serve(&mut self, m: &mut impl Machine, who: u32, call: Call) -> Answer {
        let mut heard = Heard { m, asks: Vec::new() };
        let answer = self.keeper.serve(&mut heard, who, call);
        self.replay.add(&heard.asks, answer);
        answer
    }
}

impl Replay {
    /// All operations, from the setting up on.
    pub fn asks(&self) -> &[Ask] {
        &self.asks
    }

    /// The operations of the setting up, and then those of each call.
    pub fn rounds(&self) -> impl Iterator<Item = (&[Ask], Answer)> {
        let starts = std::iter::once(0).chain(self.ends.iter().map(|end| end.0));
        starts.zip(&self.ends).map(|(start, end)| (&self.asks[start..end.0], end.1))
    }

    /// Asks a machine, which is as at the start, for all of them and for nothing else: no line is played, and no call noted.
    pub fn perform(&self, board: &mut Board) {
        for (asks, _) in self.rounds() {
            board.refill();
            perform(board, asks);
        }
    }

    fn add(&mut self, asks: &[Ask], answer: Answer) {
        self.asks.extend(folded(asks));
        self.ends.push((self.asks.len(), answer));
    }

    /// The next of them.
    #[inline]
    fn round(&mut self, m: &mut impl Machine) -> Answer {
        let start = self.next.checked_sub(1).map_or(0, |last| self.ends[last].0);
        let (end, answer) = self.ends[self.next];
        self.next += 1;
        perform(m, &self.asks[start..end]);
        answer
    }
}

impl Keeper for Replay {
    fn boot(&mut self, m: &mut impl Machine) {
        self.next = 0;
        self.round(m);
    }

    fn serve(&mut self, m: &mut impl Machine, _who: u32, _call: Call) -> Answer {
        self.round(m)
    }
}

/// A machine of which each operation is written down.
struct Heard<'a, M> {
    m: &'a mut M,
    asks: Vec<Ask>,
}

impl<M: Machine> Machine for Heard<'_, M> {
    fn frames(&self) -> u32 {
        self.m.frames()
    }

    fn devices(&self) -> u32 {
        self.m.devices()
    }

    fn group(&self, d: u32) -> u32 {
        self.m.group(d)
    }

    fn driver(&self, d: u32) -> u32 {
        self.m.driver(d)
    }

    fn put(&mut self, frame: u32, word: u32, x: u64) {
        self.asks.push(Ask::Put { frame, word, x });
        self.m.put(frame, word, x);
    }

    fn get(&mut self, frame: u32, word: u32) -> u64 {
        self.asks.push(Ask::Get { frame, word });
        self.m.get(frame, word)
    }

    fn show(&mut self, who: u32, v: u32, frame: u32) {
        self.asks.push(Ask::Show { who, v, frame });
        self.m.show(who, v, frame);
    }

    fn show_registers(&mut self, who: u32, v: u32, d: u32) {
        self.asks.push(Ask::ShowRegisters { who, v, d });
        self.m.show_registers(who, v, d);
    }

    fn hide(&mut self, who: u32, v: u32) {
        self.asks.push(Ask::Hide { who, v });
        self.m.hide(who, v);
    }

    fn start(&mut self) {
        self.asks.push(Ask::Start);
        self.m.start();
    }

    fn drain(&mut self, d: u32) -> bool {
        self.asks.push(Ask::Drain { d });
        self.m.drain(d)
    }
}
