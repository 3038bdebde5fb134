//! Small logs by hand, each with a neighbour that is explained; and random ones, beside the meaning written down literally.

mod answers;
mod calls;
mod devices;
mod drains;
mod faults;
mod frames;
mod notation;
mod programs;
mod promises;
mod random;
mod reference;
mod refusals;
