//! A second keeper, which has only the table of pages, and the machine of a script as it looks from outside.
//!
//! It knows who has which page, to which device a page is lent or which it is leaving, who has which device, what places show, and the
//! words of pages. Page tables are only counted, and of the IOMMU there is only what a script made it keep. That is enough to say of
//! each line of a script what the rules allow to be said of it: [`Second::expect`]. [`Second::follow`] takes what was said, and goes on
//! from there.

mod apply;
mod device;
mod expect;
mod fault;
mod keeper;
mod page;
mod refusal;
mod table;
mod view;
mod world;

pub use device::State;
pub use expect::Expect;
pub use fault::Fault;
pub use keeper::Second;
pub use page::{Loan, Page, Shown, Use};
pub use refusal::Refusal;
pub use table::{Place, Slot};
