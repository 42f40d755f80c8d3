//! Opening a day: season limits, the groups that they bring back, the emptying of windows, the date.

use super::{Book, Limits, Standing, GROUPS, PRODUCT_COUNT};
use crate::amounts::{self, SEASON_DAYS};
use crate::dates::Date;
use crate::products::PRODUCTS;
use crate::refusal::Refusal;

/// For each product, whether it got new limits.
pub type NewLimits = [bool; PRODUCT_COUNT];

impl Book {
    /// Opens a day, or gives the first refusal in the order 1, 2, 3, 4, 16.
    pub fn open(
        &mut self,
        year: u32,
        month: u32,
        day: u32,
        left: u32,
    ) -> Result<NewLimits, Refusal> {
        if !self.is_sound() {
            return Err(Refusal::Unsound);
        }
        if self.is_open {
            return Err(Refusal::Day);
        }
        let date = Date::new(year, month, day).ok_or(Refusal::Date)?;
        if left > date.days_remaining() {
            return Err(Refusal::Date);
        }
        let last = self.last_opened();
        if last.is_some_and(|(last, _)| date <= last) {
            return Err(Refusal::NotLater);
        }
        if last.is_some_and(|(last, before)| date.is_in_month_of(last) && left >= before) {
            return Err(Refusal::NotSmaller);
        }
        let renewed = match last {
            Some((last, _)) => self.turn_season(last.season(), date.season()),
            None => [false; PRODUCT_COUNT],
        };
        self.is_open = true;
        self.date = Some([year, month, day]);
        self.left = left;
        Ok(renewed)
    }

    /// New limits and the groups that they bring back, where a season follows the last; then empty windows, where it
    /// changed at all.
    fn turn_season(&mut self, before: u32, now: u32) -> NewLimits {
        let mut renewed = [false; PRODUCT_COUNT];
        if now == before {
            return renewed;
        }
        if now == before + 1 {
            renewed = std::array::from_fn(|product| self.renew_limits(product));
            self.bring_back(&renewed);
        }
        self.windows.iter_mut().for_each(Vec::clear);
        renewed
    }

    /// Sets the season limits of a product whose window is full.
    fn renew_limits(&mut self, product: usize) -> bool {
        let window = &self.windows[product];
        if window.len() != SEASON_DAYS as usize {
            return false;
        }
        let sum = window.iter().map(|&settlement| u64::from(settlement)).sum();
        let initial = amounts::season_limit(&PRODUCTS[product], sum);
        self.limits[product] = Limits::from_initial(product, initial);
        true
    }

    /// New limits of any product bring its whole group to the initial level, without its mark.
    fn bring_back(&mut self, renewed: &NewLimits) {
        for (standing, products) in self.standings.iter_mut().zip(GROUPS) {
            if products.iter().any(|&product| renewed[product]) {
                *standing = Standing::INITIAL;
            }
        }
    }
}

#[cfg(test)]
mod tests {
    use super::super::by_hand::{Trial, LIMITS};
    use super::*;

    fn fresh() -> Book {
        Book::found(2023, LIMITS).expect("fit limits")
    }

    /// A book whose last day was this one, with so many business days left.
    fn closed_with(date: [u32; 3], left: u32) -> Book {
        let mut book = fresh();
        book.date = Some(date);
        book.left = left;
        book
    }

    #[test]
    fn an_opening_keeps_its_date_and_left() {
        let mut book = fresh();
        assert_eq!(book.open(2024, 6, 27, 1), Ok([false; 8]));
        assert_eq!(
            (book.is_open, book.date, book.left),
            (true, Some([2024, 6, 27]), 1)
        );
    }

    #[test]
    fn refusals_come_in_the_order_2_3_4() {
        let mut book = fresh();
        assert_eq!(book.open(2023, 2, 29, 0), Err(Refusal::Date));
        assert_eq!(book.open(2024, 2, 29, 1), Err(Refusal::Date));
        assert_eq!(book.open(2024, 2, 27, 2), Ok([false; 8]));
        assert_eq!(book.open(2023, 2, 29, 0), Err(Refusal::Day));
        assert_eq!(book.open(2024, 2, 28, 0), Err(Refusal::Day));
        book.is_open = false;
        assert_eq!(book.open(2024, 2, 27, 3), Err(Refusal::Date));
        assert_eq!(book.open(2024, 2, 27, 2), Err(Refusal::NotLater));
        assert_eq!(book.open(2023, 12, 31, 0), Err(Refusal::NotLater));
        assert_eq!(book.open(2024, 2, 29, 0), Ok([false; 8]));
    }

    #[test]
    fn left_falls_within_a_month() {
        for (left, answer) in [
            (3, Err(Refusal::NotSmaller)),
            (2, Err(Refusal::NotSmaller)),
            (1, Ok([false; 8])),
            (0, Ok([false; 8])),
        ] {
            let mut book = closed_with([2024, 6, 26], 2);
            let before = book.clone();
            assert_eq!(book.open(2024, 6, 27, left), answer, "{left}");
            assert_eq!(book == before, answer.is_err(), "{left}");
        }
    }

    #[test]
    fn refusal_16_comes_after_2_3_and_4() {
        let mut book = closed_with([2024, 6, 20], 5);
        assert_eq!(book.open(2024, 6, 26, 5), Err(Refusal::Date));
        assert_eq!(book.open(2024, 6, 31, 5), Err(Refusal::Date));
        assert_eq!(book.open(2024, 6, 20, 5), Err(Refusal::NotLater));
        assert_eq!(book.open(2024, 6, 19, 6), Err(Refusal::NotLater));
        assert_eq!(book.open(2024, 6, 21, 5), Err(Refusal::NotSmaller));
        book.is_open = true;
        assert_eq!(book.open(2024, 6, 21, 5), Err(Refusal::Day));
    }

    #[test]
    fn left_is_that_of_the_last_opened_day_whatever_was_skipped() {
        let mut book = closed_with([2024, 6, 3], 19);
        assert_eq!(book.open(2024, 6, 11, 19), Err(Refusal::NotSmaller));
        assert_eq!(book.open(2024, 6, 11, 18), Ok([false; 8]));
        book.is_open = false;
        assert_eq!(book.open(2024, 6, 12, 18), Err(Refusal::NotSmaller));
        assert_eq!(book.open(2024, 6, 12, 0), Ok([false; 8]));
        book.is_open = false;
        assert_eq!(book.open(2024, 6, 30, 0), Err(Refusal::NotSmaller));
    }

    #[test]
    fn a_left_outlives_the_end_of_its_day() {
        let mut trial = Trial::new(LIMITS);
        trial.next_day = 20;
        trial.open_with(6);
        trial.rest_of_day(&[]);
        assert_eq!(trial.book.open(2024, 6, 21, 6), Err(Refusal::NotSmaller));
        assert_eq!(trial.book.open(2024, 6, 21, 5), Ok([false; 8]));
    }

    #[test]
    fn another_month_may_have_any_left() {
        for (year, month, day, left) in [
            (2024, 7, 1, 0),
            (2024, 7, 1, 22),
            (2024, 7, 31, 0),
            (2024, 12, 2, 21),
            (2025, 6, 2, 20),
            (2025, 6, 30, 0),
        ] {
            let mut book = closed_with([2024, 6, 28], 0);
            assert_eq!(
                book.open(year, month, day, left),
                Ok([false; 8]),
                "{year}-{month}-{day} {left}"
            );
        }
    }

    #[test]
    fn the_same_month_of_another_year_may_have_any_left() {
        for left in [1, 2, 3] {
            let mut book = closed_with([2024, 6, 26], 2);
            assert_eq!(book.open(2025, 6, 26, left), Ok([false; 8]), "{left}");
        }
    }
}
