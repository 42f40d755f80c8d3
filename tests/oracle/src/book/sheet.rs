//! Filing a product's sheet of the open day.

use super::{Book, Entry, Sheet};
use crate::dates::{is_spot, Date};
use crate::prices;
use crate::products::{self, Product, PRODUCTS};
use crate::refusal::Refusal;

pub const LARGEST_SHEET: usize = 16;

impl Book {
    /// Files a sheet, or gives the first refusal in the order 1, 2, 5, 11, 6, 7, 8, 9, 10.
    pub fn file(
        &mut self,
        product: u32,
        months: &[u32],
        settlements: &[u32],
    ) -> Result<(), Refusal> {
        if !self.is_sound() {
            return Err(Refusal::Unsound);
        }
        let (date, left) = self.open_day()?;
        let row = products::product(product).ok_or(Refusal::Product)?;
        let product = product as usize;
        if self.sheets_in[product].is_some() {
            return Err(Refusal::AlreadyIn);
        }
        if is_misshapen(months, settlements) {
            return Err(Refusal::Shape);
        }
        if !are_months(row, months) || is_before(months, date) {
            return Err(Refusal::Month);
        }
        if !are_settlements(row, settlements) {
            return Err(Refusal::Price);
        }
        if self.one_is_absent(product, months, date, left) {
            return Err(Refusal::Absent);
        }
        let sheet = entries(months, settlements);
        if self.one_is_beyond(product, &sheet, date, left) {
            return Err(Refusal::Beyond);
        }
        self.sheets_in[product] = Some(sheet);
        Ok(())
    }

    /// Row 9: a contract of the last ended sheet, non-spot today, is not among the months.
    pub fn one_is_absent(&self, product: usize, months: &[u32], date: Date, left: u32) -> bool {
        let last = self.last_ended[product].iter().flatten();
        let mut due = last.filter(|entry| !is_spot(entry.month, date, left));
        due.any(|entry| !months.contains(&entry.month))
    }

    /// Row 10: a non-spot contract that has a change moved by more than today's limit.
    pub fn one_is_beyond(&self, product: usize, sheet: &[Entry], date: Date, left: u32) -> bool {
        let mut limited = sheet
            .iter()
            .filter(|entry| !is_spot(entry.month, date, left));
        limited.any(|entry| self.is_beyond(product, entry))
    }

    /// Whether a contract that is not spot moved by more than today's limit.
    pub fn is_beyond(&self, product: usize, entry: &Entry) -> bool {
        let last = self.last_settlement(product, entry.month);
        last.is_some_and(|last| entry.settlement.abs_diff(last) > self.limit_today(product))
    }
}

/// Row 6: the lengths differ, or are not 1 to 16.
pub fn is_misshapen(months: &[u32], settlements: &[u32]) -> bool {
    months.len() != settlements.len() || months.is_empty() || months.len() > LARGEST_SHEET
}

/// Row 7 without the date test: every month is traded, and they strictly ascend.
pub fn are_months(row: &Product, months: &[u32]) -> bool {
    let ascend = months.windows(2).all(|pair| pair[0] < pair[1]);
    ascend && months.iter().all(|&month| row.trades(month))
}

/// The date test of row 7: a month is before the date's month.
pub fn is_before(months: &[u32], date: Date) -> bool {
    months.iter().any(|&month| month < date.contract_month())
}

/// Row 8: every settlement is in range and on the standard tick.
pub fn are_settlements(row: &Product, settlements: &[u32]) -> bool {
    let tick = row.standard_tick;
    settlements
        .iter()
        .all(|&settlement| prices::is_price(settlement, tick))
}

/// Two arrays of equal length as one sheet.
pub fn entries(months: &[u32], settlements: &[u32]) -> Sheet {
    let pairs = months.iter().zip(settlements);
    pairs
        .map(|(&month, &settlement)| Entry { month, settlement })
        .collect()
}

/// Whether a kept sheet is one, date aside.
pub fn is_sheet(product: usize, sheet: &[Entry]) -> bool {
    let row = &PRODUCTS[product];
    let ascend = sheet.windows(2).all(|pair| pair[0].month < pair[1].month);
    let is_entry = |entry: &Entry| {
        row.trades(entry.month) && prices::is_price(entry.settlement, row.standard_tick)
    };
    (1..=LARGEST_SHEET).contains(&sheet.len()) && ascend && sheet.iter().all(is_entry)
}
