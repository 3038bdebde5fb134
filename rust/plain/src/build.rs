//! With which mistake a keeper is built, if with any.

use crate::Fault;

/// A way to build the keeper. The mistake is a constant, so that without one nothing of it is in the program.
pub trait Build {
    const FAULT: Option<Fault> = None;
}

/// Without a mistake.
#[derive(Clone, Copy, Debug)]
pub enum Sound {}

impl Build for Sound {}

/// With the mistake of this number.
#[derive(Clone, Copy, Debug)]
pub enum Planted<const N: usize> {}

impl<const N: usize> Build for Planted<N> {
    const FAULT: Option<Fault> = Some(Fault::ALL[N]);
}

/// Whether it is built with this mistake.
#[inline(always)]
pub(crate) fn has<B: Build>(fault: Fault) -> bool {
    B::FAULT == Some(fault)
}
