//! What a whole script comes to.

use crate::{Event, Outcome};

/// What came of a script: for each of its lines what is said of it, `None` where nothing is printed; and for each machine that it was
/// played on (`new` begins another) all that happened there, the earliest first.
#[derive(Clone, Debug, Default, PartialEq, Eq)]
pub struct Transcript {
    pub outcomes: Vec<Option<Outcome>>,
    pub logs: Vec<Vec<Event>>,
}
