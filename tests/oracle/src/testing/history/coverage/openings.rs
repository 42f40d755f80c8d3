//! What openings reached: refusals in order, dates and lefts.

use super::{seasons, Coverage, Seen};
use crate::book::Book;
use crate::dates::Date;

const WANTED: [&str; 32] = [
    "open: refused 2",
    "open: refused 3, false date",
    "open: refused 3, 29 February",
    "open: refused 3, left above the days remaining",
    "open: refused 4, same day",
    "open: refused 4, earlier day",
    "open: refused 16, left equal",
    "open: refused 16, left greater",
    "open: 2 over 3",
    "open: 2 over 4",
    "open: 2 over 16",
    "open: 3 over 4",
    "open: 3 over 16",
    "open: 4 over 16",
    "open: 4 over 16, same day and left",
    "open: 4 over 16, earlier day with a greater left",
    "open: first opening",
    "open: left smaller by one",
    "open: left smaller by more",
    "open: left not smaller in another month of the year",
    "open: left not smaller in the same month of another year",
    "open: left 0 on the first after a month's last day",
    "open: left above 0 on the first after a month's last day",
    "open: left is all days remaining",
    "open: left 0",
    "open: left 1",
    "open: left 2",
    "open: leap day",
    "open: year 2000",
    "open: year 2098",
    "open: first day of the calendar",
    "open: last day of the calendar",
];

pub fn wanted() -> Vec<String> {
    WANTED.iter().map(|what| what.to_string()).collect()
}

pub fn observe(coverage: &mut Coverage, numbers: &[u32; 4], seen: &Seen) {
    match seen.refusal() {
        Some(refusal) => observe_refused(coverage, numbers, seen.before, refusal),
        None => observe_opened(coverage, seen),
    }
}

/// Every refusal in the order of the rule, and whether it applies, each judged for itself.
fn rows(numbers: &[u32; 4], book: &Book) -> [(u32, bool); 4] {
    let [year, month, day, left] = *numbers;
    let date = Date::new(year, month, day);
    // A false date is compared as its three numbers.
    let is_not_later = book.date.is_some_and(|last| [year, month, day] <= last);
    let is_in_month = book.date.is_some_and(|last| [year, month] == last[..2]);
    let is_false = date.is_none_or(|date| left > date.days_remaining());
    [
        (2, book.is_open),
        (3, is_false),
        (4, is_not_later),
        (16, is_in_month && left >= book.left),
    ]
}

fn observe_refused(coverage: &mut Coverage, numbers: &[u32; 4], book: &Book, refusal: u32) {
    coverage.count_over("open", refusal, &rows(numbers, book));
    match refusal {
        2 => coverage.count("open: refused 2"),
        3 => observe_false(coverage, numbers),
        4 => observe_not_later(coverage, numbers, book),
        _ => coverage.count(match numbers[3] == book.left {
            true => "open: refused 16, left equal",
            false => "open: refused 16, left greater",
        }),
    }
}

fn observe_false(coverage: &mut Coverage, numbers: &[u32; 4]) {
    let [year, month, day, _] = *numbers;
    let is_false = Date::new(year, month, day).is_none();
    let is_29_february = is_false && [month, day] == [2, 29];
    coverage.count_if(is_29_february, "open: refused 3, 29 February");
    coverage.count(match is_false {
        true => "open: refused 3, false date",
        false => "open: refused 3, left above the days remaining",
    });
}

fn observe_not_later(coverage: &mut Coverage, numbers: &[u32; 4], book: &Book) {
    let [year, month, day, left] = *numbers;
    let [last_year, last_month, last_day] = book.date.expect("a day was opened");
    let is_in_month = [year, month] == [last_year, last_month];
    let is_same = is_in_month && day == last_day;
    coverage.count(match is_same {
        true => "open: refused 4, same day",
        false => "open: refused 4, earlier day",
    });
    coverage.count_if(
        is_same && left == book.left,
        "open: 4 over 16, same day and left",
    );
    coverage.count_if(
        is_in_month && !is_same && left > book.left,
        "open: 4 over 16, earlier day with a greater left",
    );
}

fn observe_opened(coverage: &mut Coverage, seen: &Seen) {
    let (date, left) = seen.after.last_opened().expect("a day is open");
    observe_date(coverage, date, left);
    coverage.turns = Default::default();
    coverage.renewed = Default::default();
    let Some((last, before)) = seen.before.last_opened() else {
        coverage.dropped_marks = Default::default();
        return coverage.count("open: first opening");
    };
    match date.is_in_month_of(last) {
        true => coverage.count(match before - left {
            1 => "open: left smaller by one",
            _ => "open: left smaller by more",
        }),
        false => observe_other_month(coverage, (last, before), (date, left)),
    }
    let seasons = date.season() - last.season();
    if seasons > 0 {
        seasons::observe(coverage, seen, seasons, date);
    }
}

/// In another month left need not be smaller.
fn observe_other_month(
    coverage: &mut Coverage,
    (last, before): (Date, u32),
    (date, left): (Date, u32),
) {
    if last.next() == Some(date) {
        coverage.count(match left {
            0 => "open: left 0 on the first after a month's last day",
            _ => "open: left above 0 on the first after a month's last day",
        });
    }
    let is_of_year = date.year() == last.year();
    coverage.count_if(
        left >= before && is_of_year,
        "open: left not smaller in another month of the year",
    );
    coverage.count_if(
        left >= before && !is_of_year && date.month() == last.month(),
        "open: left not smaller in the same month of another year",
    );
}

fn observe_date(coverage: &mut Coverage, date: Date, left: u32) {
    for small in 0..=2 {
        coverage.count_if(left == small, &format!("open: left {small}"));
    }
    coverage.count_if(
        left == date.days_remaining(),
        "open: left is all days remaining",
    );
    coverage.count_if(date.word() % 10_000 == 229, "open: leap day");
    coverage.count_if(date.year() == 2000, "open: year 2000");
    coverage.count_if(date.year() == 2098, "open: year 2098");
    coverage.count_if(date.word() == 20000101, "open: first day of the calendar");
    coverage.count_if(date.word() == 20981231, "open: last day of the calendar");
}
