//! The words of loans and places, as specs/Words.antt of the ledger has them.

use crate::records::{Loan, Place, State};

#[test]
fn loans() {
    let lent = Loan::lent(3, 5, true);
    assert_eq!(lent, Loan(3_145_750));
    assert_eq!(Loan::lent(3, 5, false).leaving(), Loan(3_145_751));
    let last = Loan::lent(31, 262_143, true).leaving();
    assert_eq!(last, Loan(33_554_432));
    assert_eq!((last.device(), last.page_of_device(), last.is_leaving()), (31, 262_143, true));
    assert_eq!((lent.device(), lent.page_of_device(), lent.is_leaving()), (3, 5, false));
    assert_eq!(last.leaving(), last);
    assert_eq!(Loan::HOME.leaving(), Loan::HOME);
}

#[test]
fn places() {
    for (loan, tag) in [(Loan::HOME, 0), (Loan::lent(0, 0, true), 1), (Loan::lent(2, 262_143, false).leaving(), 786_432)] {
        let place = Place::page(65_535).with(loan);
        assert_eq!(place, Place(65_536 + 131_072 * tag));
        assert_eq!(place.frame(), Some(65_535));
        assert_eq!((0..32).find(|d| place.is_with(*d)), (tag != 0).then(|| loan.device()));
        assert_eq!(place.with(Loan::HOME), Place::page(65_535));
        assert!(!place.is_registers() && !place.is_nothing());
    }
    let registers = Place::registers(31);
    assert_eq!(registers, Place(65_568));
    assert!(registers.is_registers_of(31) && registers.is_registers() && registers.frame().is_none() && !registers.is_with(31));
}

#[test]
fn states() {
    for (word, state) in [(0, State::Shut), (1, State::Open(0)), (2, State::Closing(0)), (63, State::Open(31)), (64, State::Closing(31))] {
        assert_eq!(State::from(word), state);
        assert_eq!(u64::from(state), word);
    }
}
