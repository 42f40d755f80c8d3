//! Every year, month and day from 1999 to 2099, true or false, each opened on fresh books.

use std::ops::RangeInclusive;

use super::compare::lines;
use super::text;
use crate::dates::days_in_month;
use crate::history::answer::FOUNDED;
use crate::history::call::{Call, FoundCall};
use crate::products::PRODUCTS;

/// The calendar, and a year beyond each of its ends.
const YEARS: RangeInclusive<u32> = 1999..=2099;
/// The year, and a month beyond each of its ends.
const MONTHS: RangeInclusive<u32> = 0..=13;
/// The longest month, and a day beyond each of its ends.
const DAYS: RangeInclusive<u32> = 0..=32;

/// 101 years, each of 14 months of 33 days.
const DATES: usize = 101 * 14 * 33;
/// The days of the 99 years from 2000 to 2098, of which 2000, 2004 to 2096 are leap years: 25.
const TRUE_DATES: usize = 99 * 365 + 25;

/// The first opening of a book gives no new limits.
const OPENED: &str = "opened 0 0 0 0 0 0 0 0";
const REFUSED: &str = "refused 3";

/// Three openings of each date, each after a founding under an edition: six lines a date.
pub fn history(edition: u32) -> Vec<u8> {
    let limits = PRODUCTS.each_ref().map(|product| product.floor);
    let founding = text::line(&Call::Found(FoundCall { edition, limits }));
    let mut history = String::new();
    for [year, month, day] in dates() {
        let remaining = days_remaining(year, month, day);
        for left in [0, remaining, remaining + 1] {
            let opening = text::line(&Call::Open([year, month, day, left]));
            history.push_str(&format!("{founding}\n{opening}\n"));
        }
    }
    history.into_bytes()
}

/// Year, month and day.
fn dates() -> impl Iterator<Item = [u32; 3]> {
    let months = |year| MONTHS.map(move |month| (year, month));
    let days = |(year, month)| DAYS.map(move |day| [year, month, day]);
    YEARS.flat_map(months).flat_map(days)
}

/// Calendar days of the month after the day: 0 past its end, and where there is no such month.
fn days_remaining(year: u32, month: u32, day: u32) -> u32 {
    if !(1..=12).contains(&month) {
        return 0;
    }
    days_in_month(year, month).saturating_sub(day)
}

/// The first count of the answers to the history that is not what the calendar makes it.
pub fn miscount(answers: &[u8]) -> Option<String> {
    let lines = lines(answers);
    let times = |answer: &str, first: usize, step: usize| {
        let some = lines.iter().skip(first).step_by(step);
        some.filter(|&&line| line == answer.as_bytes()).count()
    };
    // The second, fourth and sixth of a date's lines are its openings.
    let refusals = 3 * DATES - 2 * TRUE_DATES;
    let counts = [
        ("lines", lines.len(), 6 * DATES),
        ("founded", times(FOUNDED, 0, 2), 3 * DATES),
        ("opened with left 0", times(OPENED, 1, 6), TRUE_DATES),
        ("opened with all days left", times(OPENED, 3, 6), TRUE_DATES),
        ("opened with one left too many", times(OPENED, 5, 6), 0),
        ("refused with 3", times(REFUSED, 1, 2), refusals),
    ];
    let wrong = counts.iter().find(|(_, counted, due)| counted != due);
    wrong.map(|(what, counted, due)| {
        format!("the expected answers are wrong: {what}: {counted}, not {due}")
    })
}

#[cfg(test)]
mod tests {
    use super::*;
    use crate::book::edition::EDITIONS;
    use crate::history::replay::answers;

    /// The history's calls, and this implementation's answers, as lines.
    struct Answered {
        calls: Vec<String>,
        answers: Vec<String>,
    }

    impl Answered {
        fn new() -> Answered {
            let owned = |text: &[u8]| {
                let text = std::str::from_utf8(text).expect("histories and answers are text");
                text.lines().map(String::from).collect()
            };
            let history = history(2023);
            Answered {
                calls: owned(&history),
                answers: owned(&answers(&history)),
            }
        }

        /// The first place of a call.
        fn place(&self, call: &str) -> usize {
            let place = self.calls.iter().position(|line| line == call);
            place.unwrap_or_else(|| panic!("no {call}"))
        }

        /// The answer to an opening, given by its four numbers.
        fn answer(&self, numbers: &str) -> &str {
            &self.answers[self.place(&format!("open {numbers}"))]
        }

        /// The miscount if the first such call had another answer.
        fn miscount_with(&self, call: &str, answer: &str) -> String {
            let mut answers = self.answers.clone();
            let was = std::mem::replace(&mut answers[self.place(call)], answer.to_string());
            assert_ne!(was, answer, "{call}");
            told(&answers)
        }
    }

    fn told(answers: &[String]) -> String {
        miscount(answers.join("\n").as_bytes()).unwrap_or_default()
    }

    #[test]
    fn six_lines_for_each_date() {
        let Answered { calls, .. } = Answered::new();
        assert_eq!(calls.len(), 279_972);
        let foundings = calls.iter().filter(|call| call.starts_with("found "));
        assert_eq!(foundings.count(), 139_986);
        assert_eq!(calls[1], "open 1999 0 0 0");
        assert_eq!(calls[279_971], "open 2099 13 32 1");
        let june = calls.iter().filter(|call| call.contains(" 2024 6 27 "));
        let openings = ["open 2024 6 27 0", "open 2024 6 27 3", "open 2024 6 27 4"];
        assert_eq!(june.collect::<Vec<_>>(), openings);
    }

    #[test]
    fn both_sides_of_each_edge_are_there() {
        let answered = Answered::new();
        let edges = [
            ("1999 12 31 0", "2000 1 1 0"),
            ("1999 1 1 30", "2000 1 1 30"),
            ("2099 1 1 0", "2098 12 31 0"),
            ("2098 12 31 1", "2098 12 1 30"),
            ("2000 2 29 1", "2000 2 29 0"),
            ("2000 2 30 0", "2000 2 28 1"),
            ("2023 2 29 0", "2023 2 28 0"),
            ("2023 2 1 28", "2023 2 1 27"),
            ("2024 2 29 1", "2024 2 29 0"),
            ("2024 2 30 0", "2024 2 28 1"),
            ("2024 2 1 29", "2024 2 1 28"),
            ("2024 0 31 0", "2024 1 31 0"),
            ("2024 13 31 1", "2024 12 31 0"),
            ("2024 8 0 31", "2024 8 1 30"),
            ("2024 8 31 1", "2024 8 31 0"),
            ("2024 8 32 0", "2024 8 30 1"),
        ];
        for (refused, accepted) in edges {
            assert_eq!(answered.answer(refused), REFUSED, "{refused}");
            assert_eq!(answered.answer(accepted), OPENED, "{accepted}");
        }
    }

    #[test]
    fn months_end_where_they_should() {
        let answered = Answered::new();
        let long = [1, 3, 5, 7, 8, 10, 12].map(|month| (month, 31));
        let short = [4, 6, 9, 11].map(|month| (month, 30));
        for (month, length) in long.into_iter().chain(short).chain([(2, 28)]) {
            let of_day = |day, left| answered.answer(&format!("2023 {month} {day} {left}"));
            assert_eq!(of_day(length, 0), OPENED, "{month}");
            assert_eq!(of_day(length, 1), REFUSED, "{month}");
            assert_eq!(of_day(length + 1, 0), REFUSED, "{month}");
            assert_eq!(of_day(1, length - 1), OPENED, "{month}");
            assert_eq!(of_day(1, length), REFUSED, "{month}");
        }
    }

    #[test]
    fn this_implementation_keeps_the_counts() {
        for edition in EDITIONS {
            assert_eq!(miscount(&answers(&history(edition))), None);
        }
    }

    #[test]
    fn one_wrong_answer_is_a_miscount() {
        let answered = Answered::new();
        let new_limits = "opened 1 0 0 0 0 0 0 0";
        let founding = answered.calls[0].as_str();
        for (call, answer, wrong) in [
            ("open 2024 6 27 0", REFUSED, "left 0: 36159, not 36160"),
            ("open 2024 6 27 0", new_limits, "left 0: 36159, not 36160"),
            ("open 2023 2 29 0", OPENED, "left 0: 36161, not 36160"),
            ("open 2024 6 27 3", REFUSED, "days left: 36159, not 36160"),
            ("open 2024 6 0 30", OPENED, "days left: 36161, not 36160"),
            ("open 2024 6 27 4", OPENED, "one left too many: 1, not 0"),
            ("open 2024 13 1 1", OPENED, "one left too many: 1, not 0"),
            ("open 2024 6 27 4", "refused 4", "with 3: 67665, not 67666"),
            (founding, "refused 13", "founded: 139985, not 139986"),
        ] {
            let told = answered.miscount_with(call, answer);
            assert!(told.ends_with(wrong), "{call}, {answer}: {told}");
        }
    }

    #[test]
    fn a_line_too_few_or_too_many_is_a_miscount() {
        let mut answers = Answered::new().answers;
        answers.push(FOUNDED.to_string());
        assert!(told(&answers).ends_with("lines: 279973, not 279972"));
        answers.truncate(279_971);
        assert!(told(&answers).ends_with("lines: 279971, not 279972"));
        assert!(told(&[]).ends_with("lines: 0, not 279972"));
    }
}
