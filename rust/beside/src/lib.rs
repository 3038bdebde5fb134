//! Random scripts on the proved keeper beside the second one, and every log before the checker.

mod compare;
mod logs;
mod plan;
mod player;
mod proved;
mod report;
mod run;
mod spoken;

pub use compare::{Difference, compare};
pub use plan::{Plan, plans};
pub use player::{Beside, Player};
pub use proved::Proved;
pub use report::{Finding, Report, Shown};
pub use run::{find, run};
pub use spoken::spoken;
