//! Openings that a book refuses, by themselves or by its last opened day and left.

use crate::book::Book;
use crate::dates::Date;
use crate::history::call::Call;
use crate::testing::random::Random;

/// More than the days remaining after any day.
const TOO_LARGE: u32 = 31;

/// A false opening, for a book whose next day could be opened as it is given.
pub fn draw(random: &mut Random, book: &Book, next: [u32; 4]) -> Call {
    Call::Open(match book.last_opened() {
        Some((date, left)) if random.one_in(2) => after(random, date, left),
        _ => false_by_itself(random, next),
    })
}

/// By its date, or by a left above the days remaining.
fn false_by_itself(random: &mut Random, [year, month, day, left]: [u32; 4]) -> [u32; 4] {
    let common_year = 4 * (year / 4).clamp(500, 523) + 1;
    let false_year = random.pick(&[0, 1999, 2099, 2100, u32::MAX]);
    match random.below(6) {
        0 => [year, month, day, random.pick(&[TOO_LARGE, 32, u32::MAX])],
        1 => [year, random.pick(&[0, 13, u32::MAX]), day, left],
        2 => [year, month, random.pick(&[0, 32, u32::MAX]), left],
        3 => [common_year, 2, 29, 0],
        4 => [false_year, month, day, left],
        _ => {
            let month = random.pick(&[4, 6, 9, 11]);
            [random.pick(&[2023, 2024, 2025]), month, 31, 0]
        }
    }
}

/// Not later than the last opened day, or with a left that does not fall within its month.
fn after(random: &mut Random, last: Date, left: u32) -> [u32; 4] {
    let [year, month, day] = [last.year(), last.month(), last.day()];
    match random.below(10) {
        0 => [year, month, day, 0],
        1 => [year, month, day, left],
        2 => [year, month, day, TOO_LARGE],
        3 => [year.max(2001) - 1, month, day.min(28), 0],
        4 => earlier(random, last, left),
        5 => [year, month, day + 1, TOO_LARGE],
        _ => later(random, last, left),
    }
}

/// An earlier day of the month, unless it is the first, with at least as much left.
fn earlier(random: &mut Random, last: Date, left: u32) -> [u32; 4] {
    let back = random.between(0, last.day() - 1);
    let left = random.between(left, last.days_remaining() + back);
    [last.year(), last.month(), last.day() - back, left]
}

/// A later day of the month with at least as much left; the next day, where no day has so many remaining.
fn later(random: &mut Random, last: Date, left: u32) -> [u32; 4] {
    let [year, month, day] = [last.year(), last.month(), last.day()];
    let spare = last.days_remaining() - left;
    if spare == 0 {
        return [year, month, day + 1, left];
    }
    let ahead = random.between(1, spare);
    let most = last.days_remaining() - ahead;
    let any = random.between(left, most);
    let left = random.pick(&[left, left, most.min(left + 1), any]);
    [year, month, day + ahead, left]
}

#[cfg(test)]
mod tests {
    use super::*;
    use crate::testing::history::calendar::calendar;
    use crate::testing::history::stray::is_refused;

    const LIMITS: [u32; 8] = [200, 400, 200, 200, 240, 240, 160, 100];

    #[test]
    fn every_one_is_refused() {
        let mut random = Random::new(4);
        let fresh = Book::found(2023, LIMITS).expect("fit limits");
        for date in calendar().days.iter().step_by(3) {
            let mut book = fresh.clone();
            let [year, month, day] = [date.year(), date.month(), date.day()];
            let left = random.between(0, date.days_remaining());
            let next = [year, month, day, left];
            let call = draw(&mut random, &book, next);
            assert!(is_refused(&Some(book.clone()), &call), "{call:?}");
            book.date = Some([year, month, day]);
            book.left = left;
            let call = draw(&mut random, &book, next);
            assert!(is_refused(&Some(book), &call), "{call:?} after {next:?}");
        }
    }
}
