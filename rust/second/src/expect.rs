//! What may be said of a line.

use protocol::Outcome;
use std::fmt;

/// What the rules allow to be said of a line.
#[derive(Clone, Debug, PartialEq, Eq)]
pub enum Expect {
    /// Nothing is printed.
    Silent,
    Exactly(Outcome),
    OneOf(Vec<Outcome>),
    /// A word is loaded, or taken by a device, and it may be any.
    AnyLoad,
    AnyTake,
    /// Too much is unknown.
    Anything,
}

impl Expect {
    pub fn admits(&self, came: Option<Outcome>) -> bool {
        match (self, came) {
            (Expect::Silent, came) => came.is_none(),
            (Expect::Exactly(one), came) => came == Some(*one),
            (Expect::OneOf(some), Some(came)) => some.contains(&came),
            (Expect::AnyLoad, came) => matches!(came, Some(Outcome::Loaded(_))),
            (Expect::AnyTake, came) => matches!(came, Some(Outcome::Took(_))),
            (Expect::Anything, came) => came.is_some(),
            (_, None) => false,
        }
    }

    /// One of what may be said.
    pub fn likely(&self) -> Option<Outcome> {
        match self {
            Expect::Silent => None,
            Expect::Anything => Some(Outcome::Done),
            Expect::Exactly(one) => Some(*one),
            Expect::OneOf(some) => some.first().copied(),
            Expect::AnyLoad => Some(Outcome::Loaded(0)),
            Expect::AnyTake => Some(Outcome::Took(0)),
        }
    }

    /// What either allows.
    pub fn or(self, other: Expect) -> Expect {
        if self == other {
            return self;
        }
        match (&self, &other) {
            (Expect::AnyLoad, Expect::Exactly(Outcome::Loaded(_))) => Expect::AnyLoad,
            (Expect::Exactly(Outcome::Loaded(_)), Expect::AnyLoad) => Expect::AnyLoad,
            _ => {
                let mut all = self.outcomes();
                all.extend(other.outcomes().into_iter().filter(|one| !self.admits(Some(*one))));
                Expect::OneOf(all)
            }
        }
    }

    fn outcomes(&self) -> Vec<Outcome> {
        match self {
            Expect::OneOf(some) => some.clone(),
            other => other.likely().into_iter().collect(),
        }
    }
}

impl fmt::Display for Expect {
    fn fmt(&self, f: &mut fmt::Formatter<'_>) -> fmt::Result {
        match self {
            Expect::Silent => f.write_str("nothing is printed"),
            Expect::Exactly(one) => write!(f, "{one}"),
            Expect::OneOf(some) => {
                for (k, one) in some.iter().enumerate() {
                    write!(f, "{}{one}", if k == 0 { "" } else { " or " })?;
                }
                Ok(())
            }
            Expect::AnyLoad => f.write_str("load and any word"),
            Expect::AnyTake => f.write_str("took and any word"),
            Expect::Anything => f.write_str("anything"),
        }
    }
}
