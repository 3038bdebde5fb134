use crate::Reason;
use crate::devices::DeviceSet;
use crate::pages::Mapping;
use crate::state::State;
use protocol::Call;

/// A call that was asked and is not told yet.
#[derive(Clone, Copy, Debug)]
pub struct Underway {
    pub who: u32,
    pub call: Call,
    /// The number by which it is to be refused, if it is.
    pub refusal: Option<u32>,
    /// The devices that it waits for.
    pub waits: DeviceSet,
    /// Those whose drain said yes, and those whose drain said no.
    pub yes: DeviceSet,
    pub no: DeviceSet,
    /// Where the page was that a recall is to bring home.
    pub recalled: Option<Mapping>,
    /// Whether it is known to have taken effect.
    pub acted: bool,
}

impl Underway {
    pub fn new(state: &State, who: u32, call: Call) -> Underway {
        let refusal = state.refusal(who, call);
        let mut recalled = None;
        let waits = match call {
            _ if refusal.is_some() => DeviceSet::default(),
            Call::Recall { v } => {
                recalled = state.places.page(who, v).and_then(|page| state.pages[page].loan.mapping());
                recalled.map(|m| m.d).into_iter().collect()
            }
            Call::Close { d } => [d].into_iter().collect(),
            Call::End { who: ended } => state.held_by(ended),
            _ => DeviceSet::default(),
        };
        let none = DeviceSet::default();
        Underway { who, call, refusal, waits, yes: none, no: none, recalled, acted: false }
    }

    /// The unit answered. A call asks one drain at most for each device that it waits for, and none for any other.
    pub fn drained(&mut self, d: u32, said: bool) -> Result<(), Reason> {
        if !self.waits.has(d) {
            return Err(Reason::DrainedInVain);
        }
        if self.yes.union(self.no).has(d) {
            return Err(Reason::DrainedTwice);
        }
        if said {
            self.yes.add(d)
        } else {
            self.no.add(d)
        }
        Ok(())
    }

    /// Whether what is lent to d at p may be leaving already, since this call is to bring it home.
    pub fn brings_home(&self, d: u32, p: u32) -> bool {
        match self.recalled {
            Some(m) => m.d == d && m.p == p,
            None => self.waits.has(d),
        }
    }

    /// Where this call is to lend a page, if it may not have done so yet.
    pub fn lends(&self) -> Option<(u32, Mapping)> {
        match self.call {
            Call::Lend { v, d, p, writes } if self.refusal.is_none() && !self.acted => Some((v, Mapping { d, p, writes })),
            _ => None,
        }
    }
}
