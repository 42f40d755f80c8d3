//! How far the contracts of a group moved on the open day.

use super::{Book, Limits, GROUPS};
use crate::dates::{is_spot, Date};
use crate::products::PRODUCTS;

#[derive(Clone, Copy, Debug, PartialEq, Eq)]
pub struct Contract {
    pub month: u32,
    pub product: usize,
}

/// A non-spot contract that has a change.
#[derive(Clone, Copy, Debug)]
pub struct Move {
    pub contract: Contract,
    /// The change without its sign.
    pub size: u32,
    /// 0 for the first non-spot contract of the product's sheet.
    pub place: usize,
    /// Of its product.
    pub limits: Limits,
}

impl Move {
    /// Whether it is among the first N of its product.
    pub fn is_first(&self) -> bool {
        self.place < PRODUCTS[self.contract.product].first
    }

    /// Whether its month is the last of a crop year.
    pub fn ends_crop_year(&self) -> bool {
        PRODUCTS[self.contract.product].ends_crop_year(self.contract.month)
    }

    pub fn is_by_initial(&self) -> bool {
        self.size == self.limits.initial
    }

    pub fn is_by_expanded(&self) -> bool {
        self.size == self.limits.expanded
    }

    /// Whether it triggers, alone or, under the edition of 2014, with another.
    pub fn can_trigger(&self) -> bool {
        self.is_first() && self.is_by_initial()
    }
}

/// Of the contracts that meet a condition, the nearest month, then the lowest product number.
pub fn leading(moves: &[Move], condition: impl Fn(&Move) -> bool) -> Option<Contract> {
    let met = moves.iter().filter(|one| condition(one));
    met.map(|one| one.contract)
        .min_by_key(|contract| (contract.month, contract.product))
}

impl Book {
    /// The moves of a group's non-spot contracts that have a change.
    pub fn moves(&self, group: usize, date: Date, left: u32) -> Vec<Move> {
        let products = GROUPS[group].iter();
        products
            .flat_map(|&product| self.moves_of(product, date, left))
            .collect()
    }

    fn moves_of(&self, product: usize, date: Date, left: u32) -> Vec<Move> {
        let sheet = self.sheets_in[product].iter().flatten();
        let non_spot = sheet.filter(|entry| !is_spot(entry.month, date, left));
        let with_change = non_spot.enumerate().filter_map(|(place, entry)| {
            let last = self.last_settlement(product, entry.month)?;
            let contract = Contract {
                month: entry.month,
                product,
            };
            Some(Move {
                contract,
                size: entry.settlement.abs_diff(last),
                place,
                limits: self.limits[product],
            })
        });
        with_change.collect()
    }
}
