//! Random scripts on random machines, and how a script is shortened that shows a difference.
//!
//! All is chosen by one number. An [`Author`] goes along with the second keeper, and mostly writes lines that come to something as
//! things stand: what is lent is recalled, what is kept is used, memory is filled. Some lines are nonsense.

mod author;
mod choices;
mod coverage;
mod edges;
mod moods;
mod nonsense;
mod picks;
mod pools;
mod random;
mod script;
mod setup;
mod shorten;

pub use author::Author;
pub use coverage::{Coverage, kind_of, name_of, possible};
pub use random::Random;
pub use script::{Script, Text, Wish, bytes_of};
pub use setup::Setup;
pub use shorten::shorten;
