//! Every day from 2000 to 2098, with its business days left if Monday to Friday are such.

use std::sync::OnceLock;

use crate::dates::Date;

pub struct Calendar {
    pub days: Vec<Date>,
    /// For each day, the weekdays of its month after it.
    pub left: Vec<u32>,
}

/// The calendar, which is made once.
pub fn calendar() -> &'static Calendar {
    static CALENDAR: OnceLock<Calendar> = OnceLock::new();
    CALENDAR.get_or_init(Calendar::new)
}

/// 1 January 2000 was a Saturday.
fn is_weekday(place: usize) -> bool {
    place % 7 > 1
}

impl Calendar {
    fn new() -> Calendar {
        let days: Vec<Date> = std::iter::successors(Some(Date::FIRST), |day| day.next()).collect();
        let mut left = vec![0; days.len()];
        for place in (0..days.len() - 1).rev() {
            if days[place].month() == days[place + 1].month() {
                left[place] = left[place + 1] + u32::from(is_weekday(place + 1));
            }
        }
        Calendar { days, left }
    }

    pub fn last(&self) -> usize {
        self.days.len() - 1
    }

    /// The next Monday to Friday, which may lie past the end.
    pub fn next_weekday(&self, place: usize) -> usize {
        let mut later = place + 1..;
        later
            .find(|&later| is_weekday(later))
            .expect("a week has weekdays")
    }

    /// The first of the next month, which may lie past the end.
    pub fn next_month(&self, place: usize) -> usize {
        place + self.days[place].days_remaining() as usize + 1
    }

    /// The place of a true date.
    pub fn place(&self, year: u32, month: u32, day: u32) -> usize {
        let date = Date::new(year, month, day).expect("a true date");
        self.days.binary_search(&date).expect("every date is here")
    }
}

#[cfg(test)]
mod tests {
    use super::*;

    #[test]
    fn marked_h_has_the_weekdays_left_of_june_2024() {
        let calendar = calendar();
        assert_eq!(calendar.left[calendar.place(2024, 6, 27)], 1);
        assert_eq!(calendar.left[calendar.place(2024, 6, 26)], 2);
        assert_eq!(calendar.left[calendar.place(2024, 6, 30)], 0);
        assert_eq!(calendar.days.len(), 36_160);
    }

    #[test]
    fn the_day_after_a_friday_is_a_monday() {
        let calendar = calendar();
        let june = |day| calendar.place(2024, 6, day);
        assert_eq!(calendar.next_weekday(june(27)), june(28));
        assert_eq!(calendar.next_weekday(june(28)), june(30) + 1);
        assert_eq!(calendar.next_weekday(june(29)), june(30) + 1);
        assert_eq!(calendar.next_month(june(1)), june(30) + 1);
        assert_eq!(calendar.next_month(june(30)), june(30) + 1);
    }

    #[test]
    fn left_falls_from_any_day_to_the_next_weekday_of_its_month() {
        let calendar = calendar();
        for place in 0..calendar.last() {
            let next = calendar.next_weekday(place);
            if next < calendar.next_month(place) {
                assert!(calendar.left[next] < calendar.left[place], "{place}");
            }
        }
    }
}
