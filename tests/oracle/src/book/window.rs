//! The windows: the last 45 collected settlements of each product.

use super::{Book, PRODUCT_COUNT};
use crate::amounts::SEASON_DAYS;
use crate::dates::Date;

pub const LARGEST_WINDOW: usize = SEASON_DAYS as usize;

const JULY: u32 = 7;
const NOVEMBER: u32 = 11;
const DECEMBER: u32 = 12;

const SOYBEANS: usize = 1;
const ROUGH_RICE: usize = 7;

fn contract_month(year: u32, month: u32) -> u32 {
    year * 12 + month - 1
}

/// The contract that is collected on a date; none while windows rest.
pub fn collected_contract(product: usize, date: Date) -> Option<u32> {
    let harvest = match product {
        SOYBEANS | ROUGH_RICE => NOVEMBER,
        _ => DECEMBER,
    };
    match (date.month(), date.day()) {
        (4 | 10, 16..) => None,
        (5..=10, _) => Some(contract_month(date.year(), harvest)),
        (11 | 12, _) => Some(contract_month(date.year() + 1, JULY)),
        _ => Some(contract_month(date.year(), JULY)),
    }
}

impl Book {
    /// Takes today's settlements into the windows; a missing contract empties its product's.
    pub fn collect(&mut self, date: Date) {
        for product in 0..PRODUCT_COUNT {
            if let Some(month) = collected_contract(product, date) {
                self.collect_contract(product, month);
            }
        }
    }

    fn collect_contract(&mut self, product: usize, month: u32) {
        let mut sheet = self.sheets_in[product].iter().flatten();
        let window = &mut self.windows[product];
        let Some(entry) = sheet.find(|entry| entry.month == month) else {
            window.clear();
            return;
        };
        if window.len() == LARGEST_WINDOW {
            window.remove(0);
        }
        window.push(entry.settlement);
    }
}

#[cfg(test)]
mod tests {
    use super::*;

    fn collected(product: usize, word: u32) -> Option<u32> {
        collected_contract(product, Date::from_word(word).expect("a true date"))
    }

    #[test]
    fn the_next_july_from_november_to_15_april() {
        let july = 2025 * 12 + 6;
        for date in [20241101, 20241231, 20250101, 20250228, 20250415] {
            for product in 0..8 {
                assert_eq!(collected(product, date), Some(july), "{date}");
            }
        }
    }

    #[test]
    fn december_or_november_from_may_to_15_october() {
        for date in [20250501, 20250731, 20251001, 20251015] {
            for product in [0, 2, 3, 4, 5, 6] {
                assert_eq!(collected(product, date), Some(2025 * 12 + 11), "{date}");
            }
            for product in [1, 7] {
                assert_eq!(collected(product, date), Some(2025 * 12 + 10), "{date}");
            }
        }
    }

    #[test]
    fn windows_rest_from_the_16th_to_the_end_of_april_and_october() {
        for date in [20250416, 20250430, 20251016, 20251031] {
            for product in 0..8 {
                assert_eq!(collected(product, date), None, "{date}");
            }
        }
    }
}
