//! Plots: which contracts of a product move together by I, or nearly do, so that it triggers under the edition of 2014 or
//! just does not.

use super::moods::{Size, Which};

/// Contracts that move, each another one.
type Picks = &'static [(Which, Size)];

#[derive(Clone, Copy)]
pub struct Plot {
    /// Of one product of the group.
    pub own: Picks,
    /// Of each other product of the group.
    pub others: Picks,
}

const ONE: Picks = &[by_i(Which::OtherMonth)];
const TWO: Picks = &[by_i(Which::OtherMonth), by_i(Which::OtherMonth)];
const CROP_MONTH: Picks = &[by_i(Which::CropMonth)];

const fn by_i(which: Which) -> (Which, Size) {
    (which, Size::Initial)
}

const fn alone(own: Picks) -> Plot {
    Plot { own, others: &[] }
}

const fn beside(own: Picks, others: Picks) -> Plot {
    Plot { own, others }
}

/// Those that trigger by as little as can be.
pub const TRIGGERS: [Plot; 2] = [alone(TWO), alone(CROP_MONTH)];

/// Two that trigger nothing stand twice, so that they are drawn twice as often.
pub const ALL: [Plot; 20] = [
    alone(TWO),
    alone(CROP_MONTH),
    alone(&[by_i(Which::LastOfFirst), by_i(Which::InFirst)]),
    alone(&[by_i(Which::CropMonth), by_i(Which::InFirst)]),
    beside(TWO, TWO),
    beside(CROP_MONTH, CROP_MONTH),
    // Only one product triggers, whoever is nearer.
    beside(TWO, ONE),
    beside(CROP_MONTH, ONE),
    // No product triggers.
    alone(ONE),
    alone(ONE),
    beside(ONE, ONE),
    alone(&[by_i(Which::OtherMonth), by_i(Which::NextPastFirst)]),
    alone(&[by_i(Which::OtherMonth), by_i(Which::NextPastFirst)]),
    alone(&[by_i(Which::PastFirst), by_i(Which::PastFirst)]),
    alone(&[by_i(Which::CropMonthPastFirst)]),
    alone(&[by_i(Which::OtherMonth), by_i(Which::CropMonthPastFirst)]),
    alone(&[
        by_i(Which::OtherMonth),
        (Which::OtherMonth, Size::BelowInitial),
    ]),
    alone(&[(Which::CropMonth, Size::BelowInitial)]),
    alone(&[
        (Which::OtherMonth, Size::OfAnother),
        (Which::OtherMonth, Size::OfAnother),
    ]),
    alone(&[(Which::CropMonth, Size::OfAnother)]),
];
