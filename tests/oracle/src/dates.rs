//! The Gregorian calendar from 2000 to 2098, contract months, seasons and spot.

const FIRST_YEAR: u32 = 2000;
const LAST_YEAR: u32 = 2098;

/// A true date; dates compare by the calendar.
#[derive(Clone, Copy, Debug, PartialEq, Eq, PartialOrd, Ord)]
pub struct Date {
    year: u32,
    month: u32,
    day: u32,
}

fn is_leap(year: u32) -> bool {
    year.is_multiple_of(4) && (!year.is_multiple_of(100) || year.is_multiple_of(400))
}

/// The length of a month from 1 to 12, of any year.
pub fn days_in_month(year: u32, month: u32) -> u32 {
    match month {
        2 if is_leap(year) => 29,
        2 => 28,
        4 | 6 | 9 | 11 => 30,
        _ => 31,
    }
}

impl Date {
    pub const FIRST: Date = Date {
        year: FIRST_YEAR,
        month: 1,
        day: 1,
    };

    /// None where there is no such date.
    pub fn new(year: u32, month: u32, day: u32) -> Option<Date> {
        if !(FIRST_YEAR..=LAST_YEAR).contains(&year) || !(1..=12).contains(&month) {
            return None;
        }
        if !(1..=days_in_month(year, month)).contains(&day) {
            return None;
        }
        Some(Date { year, month, day })
    }

    /// From the form of a season file: year × 10,000 + month × 100 + day.
    pub fn from_word(word: u32) -> Option<Date> {
        Date::new(word / 10_000, word / 100 % 100, word % 100)
    }

    pub fn word(self) -> u32 {
        self.year * 10_000 + self.month * 100 + self.day
    }

    pub fn year(self) -> u32 {
        self.year
    }

    /// From 1 to 12.
    pub fn month(self) -> u32 {
        self.month
    }

    pub fn day(self) -> u32 {
        self.day
    }

    /// The day after, unless the calendar ends here.
    pub fn next(self) -> Option<Date> {
        Date::new(self.year, self.month, self.day + 1)
            .or_else(|| Date::new(self.year, self.month + 1, 1))
            .or_else(|| Date::new(self.year + 1, 1, 1))
    }

    /// The number of the month in which the date lies, counted as contract months are.
    pub fn contract_month(self) -> u32 {
        self.year * 12 + self.month - 1
    }

    /// Whether both dates lie in the same month of the same year.
    pub fn is_in_month_of(self, other: Date) -> bool {
        self.contract_month() == other.contract_month()
    }

    /// Seasons run from May to October and from November to April.
    pub fn season(self) -> u32 {
        (self.contract_month() - 4) / 6
    }

    /// Calendar days of the month after this one.
    pub fn days_remaining(self) -> u32 {
        days_in_month(self.year, self.month) - self.day
    }
}

/// Whether a contract is spot, `left` being the business days of the month after the date.
pub fn is_spot(contract_month: u32, date: Date, left: u32) -> bool {
    let current = date.contract_month();
    contract_month <= current || (contract_month == current + 1 && left <= 1)
}

#[cfg(test)]
mod tests {
    use super::*;

    fn date(word: u32) -> Date {
        Date::from_word(word).expect("a true date")
    }

    #[test]
    fn true_dates() {
        for word in [20000101, 20000229, 20240229, 20960229, 20240430, 20981231] {
            assert_eq!(date(word).word(), word);
        }
    }

    #[test]
    fn false_dates() {
        let words = [
            0,
            19991231,
            20990101,
            21000101,
            21000229,
            20230229,
            20240230,
            20240431,
            20240015,
            20241315,
            20240200,
            20240132,
            u32::MAX,
        ];
        for word in words {
            assert_eq!(Date::from_word(word), None, "{word}");
        }
    }

    #[test]
    fn every_day_of_99_years_follows_the_last() {
        let mut day = Date::FIRST;
        let mut days = 1;
        while let Some(next) = day.next() {
            assert!(day < next);
            day = next;
            days += 1;
        }
        assert_eq!(day.word(), 20981231);
        // 99 years, of which 2000, 2004 to 2096 are leap years: 25.
        assert_eq!(days, 99 * 365 + 25);
    }

    #[test]
    fn days_remaining_are_calendar_days() {
        assert_eq!(date(20240627).days_remaining(), 3);
        assert_eq!(date(20240229).days_remaining(), 0);
    }

    #[test]
    fn a_month_is_of_one_year() {
        assert!(date(20240601).is_in_month_of(date(20240630)));
        assert!(!date(20240630).is_in_month_of(date(20240701)));
        assert!(!date(20240630).is_in_month_of(date(20250630)));
    }

    #[test]
    fn seasons_change_on_the_first_of_may_and_november() {
        let winter = date(20240430).season();
        let summer = date(20240501).season();
        assert_eq!(date(20231101).season(), winter);
        assert_eq!(summer, winter + 1);
        assert_eq!(date(20241031).season(), summer);
        assert_eq!(date(20241101).season(), summer + 1);
    }

    #[test]
    fn marked_h_july_is_spot_from_the_second_business_day_before_it() {
        let july = 2024 * 12 + 6;
        assert!(is_spot(july, date(20240627), 1));
        assert!(!is_spot(july, date(20240626), 2));
    }

    #[test]
    fn spot_takes_in_the_current_month_and_earlier_ones() {
        let december = 2024 * 12 + 11;
        assert!(is_spot(december, date(20241202), 20));
        assert!(is_spot(december, date(20250102), 20));
        assert!(is_spot(december + 1, date(20241230), 1));
        assert!(!is_spot(december + 2, date(20241231), 0));
        assert!(!is_spot(u32::MAX, date(20241231), 0));
    }
}
