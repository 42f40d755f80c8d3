//! From one day of a history to the next.

use super::calendar::calendar;
use crate::dates::Date;
use crate::testing::random::Random;

#[derive(Clone, Copy, Debug)]
pub enum Pace {
    /// Monday to Friday.
    Daily,
    /// Mostly a day, weekends included, at times some weeks.
    Uneven,
    /// So many weekdays in a row, then on into another season.
    Seasons(usize),
    /// So many weekdays in a row, then on into the next season.
    NextSeason(usize),
    /// Over the ends of months whose next month many products trade.
    MonthEnds,
    /// Years at a time, often to a day on which something changes.
    Leaps,
}

/// Where a day stands among the weekdays in a row between two changes of season, or before a conversion.
#[derive(Clone, Copy, Debug, PartialEq, Eq)]
pub enum Phase {
    /// Soon after a change.
    Beginning,
    Middle,
    /// Soon before a change.
    Closing,
    /// The last day before a change.
    Last,
    /// The last day before a conversion: under the edition of 2014 every group comes to the initial level.
    Calm,
}

/// So many days after a change, and before the last one, are soon.
const SOON: usize = 4;

impl Pace {
    /// The phase of a day of a book's life, the first of which is 1.
    pub fn phase(self, day: usize) -> Phase {
        let (Pace::Seasons(stay) | Pace::NextSeason(stay)) = self else {
            return Phase::Middle;
        };
        let since = day % stay;
        if since + 1 == stay {
            return Phase::Last;
        }
        if since + 1 + SOON >= stay {
            return Phase::Closing;
        }
        match since < SOON && day >= stay {
            true => Phase::Beginning,
            false => Phase::Middle,
        }
    }
}

/// The place in the calendar of the day after one with so much left, or None past its end.
pub fn next_day(
    random: &mut Random,
    pace: Pace,
    (today, left): (usize, u32),
    ended: usize,
) -> Option<usize> {
    let calendar = calendar();
    let next = match pace {
        Pace::Daily => calendar.next_weekday(today),
        Pace::Uneven => today + random.pick(&[1, 1, 1, 1, 1, 2, 3, 3, 5, 20, 45]),
        Pace::Seasons(stay) if ended % stay == stay - 1 => any_season(random, today),
        Pace::NextSeason(stay) if ended % stay == stay - 1 => season_ahead(random, today, 1),
        Pace::Seasons(_) | Pace::NextSeason(_) => calendar.next_weekday(today),
        Pace::MonthEnds => month_end(random, today),
        Pace::Leaps => leap(random, today),
    };
    // After a left of 0 no day of the month can be opened.
    let next = match left {
        0 => next.max(calendar.next_month(today)),
        _ => next,
    };
    (next <= calendar.last()).then_some(next)
}

/// A day of the next season, mostly; of the one after it, or years ahead.
fn any_season(random: &mut Random, today: usize) -> usize {
    let seasons = random.pick(&[1, 1, 1, 1, 1, 1, 2, 3, 20]);
    season_ahead(random, today, seasons)
}

/// A day near the beginning of a later season.
fn season_ahead(random: &mut Random, today: usize, seasons: u32) -> usize {
    let days = &calendar().days;
    let wanted = days[today].season() + seasons;
    let first = days[today..].iter().position(|day| day.season() >= wanted);
    let into = random.pick(&[0, 0, 0, 1, 5, 40]);
    first.map_or(usize::MAX / 2, |days| today + days + into)
}

/// On by a weekday near the end of a month, else to three business days before one.
fn month_end(random: &mut Random, today: usize) -> usize {
    let calendar = calendar();
    let is_near = calendar.left[today] <= 3;
    if is_near || random.one_in(3) {
        return calendar.next_weekday(today);
    }
    let later = calendar.left[today..].iter().position(|&left| left == 3);
    later.map_or(today + 1, |days| today + days.max(1))
}

/// Ahead by up to six years, then on to a day on which something changes.
fn leap(random: &mut Random, today: usize) -> usize {
    if random.one_in(2) {
        return today + 1;
    }
    let from = today + 1 + random.below(longest_leap(today));
    let turn = random.pick(&[229, 415, 416, 430, 501, 1015, 1016, 1031, 1101, 1231]);
    let days = &calendar().days;
    let rest = days.get(from..).unwrap_or_default();
    let later = rest.iter().position(|day| day.word() % 10_000 == turn);
    later.map_or(from, |days| from + days)
}

fn longest_leap(today: usize) -> usize {
    let left = calendar().last() - today;
    (left / 30).clamp(1, 2_200)
}

/// Today's left: mostly the weekdays, at times 0 to 2 or another number up to the most it can be.
pub fn left_of(
    random: &mut Random,
    today: usize,
    is_strange: bool,
    last: Option<(Date, u32)>,
) -> u32 {
    let calendar = calendar();
    let most = most_left(calendar.days[today], last);
    if !is_strange || !random.one_in(4) {
        return calendar.left[today].min(most);
    }
    let drawn = random.between(0, most);
    random.pick(&[0, 1, 2, most, drawn]).min(most)
}

/// The days remaining, and less than was left on the last opened day if that is of the same month.
fn most_left(date: Date, last: Option<(Date, u32)>) -> u32 {
    let remaining = date.days_remaining();
    match last {
        Some((last, left)) if date.is_in_month_of(last) => remaining.min(left.saturating_sub(1)),
        _ => remaining,
    }
}

#[cfg(test)]
mod tests {
    use super::*;
    use crate::testing::history::temper;

    /// Unless the last left was 0, which no later day of the month can follow.
    #[test]
    fn left_falls_within_a_month() {
        let mut random = Random::new(16);
        let calendar = calendar();
        for today in (0..calendar.last()).step_by(5) {
            let date = calendar.days[today];
            let last = (date, random.between(1, date.days_remaining().max(1)));
            let left = left_of(&mut random, today, true, Some(last));
            assert!(left < last.1 && left <= date.days_remaining(), "{date:?}");
        }
    }

    #[test]
    fn a_change_of_season_follows_the_last_day() {
        let mut random = Random::new(104);
        let days = &calendar().days;
        for pace in [Pace::Seasons(46), Pace::NextSeason(47), Pace::Seasons(30)] {
            let mut today = calendar().place(2024, 5, 1);
            for day in 1..=190 {
                let next = next_day(&mut random, pace, (today, 5), day).expect("a later day");
                let turns = days[next].season() != days[today].season();
                assert_eq!(turns, pace.phase(day) == Phase::Last, "{pace:?} {day}");
                let begins = turns && pace.phase(day + 1) == Phase::Beginning;
                assert_eq!(turns, begins, "{pace:?} {day}");
                today = next;
            }
        }
        assert_eq!(Pace::Seasons(46).phase(1), Phase::Middle);
        assert_eq!(Pace::Daily.phase(45), Phase::Middle);
    }

    #[test]
    fn a_day_after_left_0_is_of_another_month() {
        let mut random = Random::new(16);
        for seed in 0..20 * temper::TURNS {
            let temper = temper::draw(&mut random, seed);
            let today = temper.first_day;
            let next = next_day(&mut random, temper.pace, (today, 0), 0);
            let days = &calendar().days;
            let is_other = |next: usize| !days[next].is_in_month_of(days[today]);
            assert!(next.is_none_or(is_other), "{:?}", temper.pace);
        }
    }
}
