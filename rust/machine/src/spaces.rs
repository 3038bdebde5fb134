//! What each place shows to each program.

use protocol::{PLACES, PROGRAMS};

/// What a place shows: nothing, the page in a frame, or a device's registers.
#[derive(Clone, Copy, Debug, Default, PartialEq, Eq)]
pub enum View {
    #[default]
    Hidden,
    Page(u32),
    Regs(u32),
}

pub(crate) struct Spaces {
    places: Box<[[View; PLACES as usize]]>,
}

impl Spaces {
    /// Nothing is shown anywhere.
    pub(crate) fn new() -> Spaces {
        Spaces { places: vec![[View::Hidden; PLACES as usize]; PROGRAMS as usize].into_boxed_slice() }
    }

    pub(crate) fn hide_all(&mut self) {
        self.places.as_flattened_mut().fill(View::Hidden);
    }

    pub(crate) fn view(&self, who: u32, v: u32) -> View {
        self.places[who as usize][v as usize]
    }

    #[inline]
    pub(crate) fn set(&mut self, who: u32, v: u32, view: View) {
        self.places[who as usize][v as usize] = view;
    }
}
