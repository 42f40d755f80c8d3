//! The daily price limit book: founding, opening, sheet, end, conversion and check.

pub mod check;
pub mod convert;
pub mod edition;
pub mod edition_2014;
pub mod edition_2023;
pub mod end;
pub mod found;
pub mod groups;
pub mod moves;
pub mod opening;
pub mod sheet;
pub mod sound;
pub mod window;

#[cfg(test)]
pub mod by_hand;
#[cfg(test)]
mod convert_tests;
#[cfg(test)]
mod edition_2014_tests;
#[cfg(test)]
mod end_tests;
#[cfg(test)]
mod season_tests;
#[cfg(test)]
mod sheet_tests;
#[cfg(test)]
mod sound_tests;
#[cfg(test)]
mod spring_tests;
#[cfg(test)]
mod wheat_tests;

use crate::amounts;
use crate::dates::Date;
use crate::products::PRODUCTS;
use crate::refusal::Refusal;
pub use groups::{GROUPS, GROUP_COUNT};

pub const PRODUCT_COUNT: usize = PRODUCTS.len();

/// A contract's line on a sheet.
#[derive(Clone, Copy, Debug, PartialEq, Eq)]
pub struct Entry {
    pub month: u32,
    pub settlement: u32,
}

pub type Sheet = Vec<Entry>;

#[derive(Clone, Copy, Debug, PartialEq, Eq)]
pub enum Level {
    Initial,
    Expanded,
}

/// Where a group stands.
#[derive(Clone, Copy, Debug, PartialEq, Eq)]
pub struct Standing {
    pub level: Level,
    /// On the ended day before, a contract moved by exactly E and the group was held; it got no new limits since.
    pub marked: bool,
}

/// I and E of a product.
#[derive(Clone, Copy, Debug, PartialEq, Eq)]
pub struct Limits {
    pub initial: u32,
    pub expanded: u32,
}

/// Every field can hold damage, so that soundness is a question.
#[derive(Clone, Debug, PartialEq, Eq)]
pub struct Book {
    /// The year of the edition: the founding's, and 2023 after a conversion.
    pub edition: u32,
    pub is_open: bool,
    /// Year, month and day of the last opened day.
    pub date: Option<[u32; 3]>,
    /// Of the last opened day; 0 where there is none.
    pub left: u32,
    pub standings: [Standing; GROUP_COUNT],
    pub limits: [Limits; PRODUCT_COUNT],
    /// Oldest settlement first.
    pub windows: [Vec<u32>; PRODUCT_COUNT],
    pub sheets_in: [Option<Sheet>; PRODUCT_COUNT],
    pub last_ended: [Option<Sheet>; PRODUCT_COUNT],
}

impl Standing {
    /// At the initial level no group is marked.
    pub const INITIAL: Standing = Standing {
        level: Level::Initial,
        marked: false,
    };
}

impl Limits {
    /// I with the E that belongs to it.
    pub fn from_initial(product: usize, initial: u32) -> Limits {
        let expanded = amounts::expanded(&PRODUCTS[product], initial);
        Limits { initial, expanded }
    }
}

impl Book {
    /// The last opened day and its left.
    pub fn last_opened(&self) -> Option<(Date, u32)> {
        let [year, month, day] = self.date?;
        Some((Date::new(year, month, day)?, self.left))
    }

    /// The open day and its left, or refusal 2.
    pub fn open_day(&self) -> Result<(Date, u32), Refusal> {
        if !self.is_open {
            return Err(Refusal::Day);
        }
        self.last_opened().ok_or(Refusal::Unsound)
    }

    /// Today's limit of a product, by its group's level.
    pub fn limit_today(&self, product: usize) -> u32 {
        let limits = self.limits[product];
        match self.standings[groups::group_of(product)].level {
            Level::Initial => limits.initial,
            Level::Expanded => limits.expanded,
        }
    }

    /// What the contract settled at on the last ended day, if its sheet lists it.
    pub fn last_settlement(&self, product: usize, month: u32) -> Option<u32> {
        let sheet = self.last_ended[product].as_ref()?;
        let entry = sheet.iter().find(|entry| entry.month == month)?;
        Some(entry.settlement)
    }
}
