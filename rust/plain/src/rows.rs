//! Searches of a program's places, for pages that a device has and for what is shown.

use crate::lanes::{LANES, any, bits};
use crate::records::{Loan, Place};
use crate::tables::Tables;
use protocol::PLACES;

/// So many blocks are a program's places.
pub(crate) const BLOCKS: usize = PLACES as usize / LANES;

/// A program, and for each block of its places the bits that some of them have. Those stay true while bits are only taken away.
pub(crate) struct Row {
    pub(crate) who: u32,
    sums: [u64; BLOCKS],
}

impl Tables {
    /// Reads the places of a program once for all searches of a call.
    #[inline]
    pub(crate) fn row(&self, who: u32) -> Row {
        let mut sums = [0; BLOCKS];
        for (sum, block) in sums.iter_mut().zip(self.places(who)) {
            *sum = bits(block);
        }
        Row { who, sums }
    }

    /// Does the same with each place that `is` holds of, upwards; each of those has some of the bits.
    #[inline]
    pub(crate) fn each_place(&mut self, row: &Row, some: u64, is: impl Fn(Place) -> bool, mut each: impl FnMut(&mut Tables, u32)) {
        for k in 0..BLOCKS {
            if row.sums[k] & some != 0 {
                self.each_of_block(row.who, k, &is, &mut each);
            }
        }
    }

    /// The same for a block of places. It stands apart, since it is seldom come to.
    #[inline(never)]
    fn each_of_block(&mut self, who: u32, k: usize, is: impl Fn(Place) -> bool, mut each: impl FnMut(&mut Tables, u32)) {
        if !any(&self.places(who)[k], |word| is(Place(word))) {
            return;
        }
        for v in (k * LANES) as u32..((k + 1) * LANES) as u32 {
            if is(self.place(who, v)) {
                each(self, v);
            }
        }
    }

    /// Each loan to d becomes what `after` says.
    #[inline]
    pub(crate) fn change_loans(&mut self, row: &Row, d: u32, after: impl Fn(Loan) -> Loan) {
        self.each_place(
            row,
            Place::TAGS,
            |place| place.is_with(d),
            |tables, v| {
                if let Some(f) = tables.place(row.who, v).frame() {
                    tables.set_loan(row.who, v, f, after(tables.loan(f)));
                }
            },
        );
    }

    /// Some page is lent to d or leaving it at page p, and `counts`. Then it is of the program that has d.
    #[inline]
    pub(crate) fn is_taken(&self, d: u32, p: u32, counts: impl Fn(Loan) -> bool) -> bool {
        let Some(who) = self.state(d).holder() else {
            return false;
        };
        let at = Place::NOTHING.with(Loan::lent(d, p, false));
        let is = |word| Place(word).has_tag_of(at);
        let taken = |word| is(word) && Place(word).frame().is_some_and(|f| counts(self.loan(f)));
        let row = self.row(who);
        let mut blocks = self.places(who).iter().zip(row.sums);
        blocks.any(|(block, sum)| sum & at.0 == at.0 && any(block, is) && block.iter().copied().any(taken))
    }
}
