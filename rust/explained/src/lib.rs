//! Says whether a log of events is explained by the rules of `docs/MODEL.md`: whether every load, store, fault, poke, access and miss
//! is right at its moment, with the words that were read, and every call took effect at one moment between its asking and its answer.
//!
//! The log begins as the machine starts, the earliest event first. It may end within a call. Each event costs about the same, however
//! long the log is; the answer to a `close` or an `end` costs what the program and the device have. A page that was written to takes 4 KiB.
//!
//! ```
//! use explained::{Reason, Shape, Unexplained, check};
//! use protocol::{Answer, Call, Device, Event};
//!
//! let machine = Shape { frames: 64, devices: vec![Device { group: 0, driver: 1 }] };
//! let (who, call) = (1, Call::Get { v: 5 });
//! let log = [
//!     Event::Asked { who, call },
//!     Event::Told { who, call, answer: Answer::Done },
//!     Event::Loaded { who, v: 5, word: 0, x: 7 },
//! ];
//! assert_eq!(check(&machine, &log), Err(Unexplained { at: 2, why: Reason::NotNoughts { found: 7 } }));
//! ```
//!
//! # The moment of a call
//!
//! A log does not show when a call takes effect. All moments are considered, without trying each:
//!
//! - `get`, `free`, `give`, `open` and `regs` concern pages that are home before and after, and places. No event of a device depends on
//!   them, and programs do not run within a call: any moment explains the same logs.
//! - `lend` takes effect where the first access at its page comes, or else at its answer. Misses before that are right, and later ones
//!   are as for any page that is lent.
//! - `recall`, `close` and `end` have their pages leaving from the asking on, and take effect at the answer. A page that is leaving may be
//!   reached as one that is lent, and missed besides, and one that is home may only be missed: no earlier moment explains more.
//!
//! # Where more is accepted
//!
//! The log does not say which frame a page is, before an access under a device's number names it. From then on the page is that frame,
//! also before, back to its `get`; no two pages are one frame at one time. What nobody named stays open: it is known how many frames are
//! pages and tables, so that refusals with 7 are exact, but not which. So a log is accepted, too, if the named frames fit in pairs but
//! leave no frames for all the pages and tables that were never named. That takes a memory that is, at some moment, so full that what
//! was not named has less than a free choice. In all else the check is exact.
//!
//! # Where less is accepted
//!
//! Drains are as in "Done and later", not only as far as an answer rests on them: the unit is asked within a call, only to forget a
//! device that the call waits for, and once for each. A refused call asks for none. And no event names a program, place, word, device or
//! page that there is not; only an asking may.

mod access;
mod answers;
mod checker;
mod devices;
mod effects;
mod frames;
mod pages;
mod places;
mod programs;
mod reason;
mod refusals;
mod shape;
mod state;
mod tables;
mod underway;
mod words;

pub use checker::{Checker, Unexplained, check};
pub use reason::Reason;
pub use shape::Shape;
