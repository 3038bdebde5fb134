//! The proved keeper on the proved simulated machine, from Rust.
//!
//! A [`Machine`] holds what is lent to the library, and plays scripts: text in the language of `docs/SCRIPTS.md`.
//!
//! ```
//! use protocol::{Device, Outcome};
//! use tevmalo::Machine;
//!
//! let camera = Device { group: 0, driver: 1 };
//! let mut machine = Machine::new(64, &[camera], 4096)?;
//! let night = machine.play(b"1 open 0\n1 get 5\n1 lend 5 0 700 w\ndev 0 write 700 0 4242\n1 load 5 0\n")?;
//! assert_eq!(night.outcomes[4], Some(Outcome::Loaded(4242)));
//! # Ok::<(), tevmalo::Refusal>(())
//! ```

mod foreign;
mod machine;
mod prepared;
mod refusal;
mod rows;

pub use machine::Machine;
pub use prepared::Prepared;
pub use refusal::Refusal;
