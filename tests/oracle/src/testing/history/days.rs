//! One book through every day from 2000 to 2098, with no call refused.

use std::fmt;

use super::calendar::calendar;
use super::listing::{Collected, Custom};
use super::market::Market;
use super::pace::Phase;
use super::text;
use crate::book::Book;
use crate::dates::Date;
use crate::history::answer;
use crate::history::call::{Call, FoundCall};
use crate::products::PRODUCTS;
use crate::testing::random::Random;
use crate::verdict::Span;

const SEED: u64 = 20_000_101;

const LIMITS: [u32; 8] = [200, 400, 200, 200, 240, 240, 160, 100];

/// About where the products settle, in their own units.
const PRICES: [u32; 8] = [3_600, 8_000, 3_000, 3_500, 4_400, 4_400, 2_400, 2_800];

/// The editions that a book lives under.
#[derive(Clone, Copy, Debug, PartialEq, Eq)]
pub enum Life {
    /// One edition.
    Under(u32),
    /// 2014, and 2023 from the middle of its days on.
    Carried,
}

/// Every life that is lived through all days.
pub const LIVES: [Life; 3] = [Life::Under(2014), Life::Under(2023), Life::Carried];

impl Life {
    fn first_edition(self) -> u32 {
        match self {
            Life::Under(edition) => edition,
            Life::Carried => 2014,
        }
    }
}

impl fmt::Display for Life {
    fn fmt(&self, formatter: &mut fmt::Formatter) -> fmt::Result {
        match self {
            Life::Under(edition) => write!(formatter, "under the edition of {edition}"),
            Life::Carried => write!(formatter, "under both editions"),
        }
    }
}

/// A history, and the answers that this implementation gave while it was made.
#[derive(Default)]
pub struct Days {
    pub text: Vec<u8>,
    pub answers: Vec<u8>,
}

/// Call after call on a book, and the days that they have made so far.
struct Walk {
    random: Random,
    market: Market,
    days: Days,
    book: Option<Book>,
}

/// The history of all 36,160 days of a life, with so many checks a day from the second on.
pub fn all_days(life: Life, checks: usize) -> Days {
    days(life, checks, calendar().days.len())
}

/// The history of the first days.
pub fn days(life: Life, checks: usize, count: usize) -> Days {
    let mut walk = Walk {
        random: Random::new(SEED),
        market: market(),
        days: Days::default(),
        book: None,
    };
    walk.call(Call::Found(FoundCall {
        edition: life.first_edition(),
        limits: LIMITS,
    }));
    let converts_before = (life == Life::Carried).then_some(count / 2);
    for (day, &date) in calendar().days.iter().take(count).enumerate() {
        if converts_before == Some(day) {
            walk.call(Call::Convert);
        }
        walk.market.phase = match converts_before == Some(day + 1) {
            true => Phase::Calm,
            false => Phase::Middle,
        };
        walk.day(date, checks);
    }
    walk.days
}

fn market() -> Market {
    let custom = |product: usize| Custom {
        contracts: PRODUCTS[product].first + 4,
        leaves_out: 1_000,
        drops_spot: 3,
        is_far: false,
        collected: Collected::Any,
        price: PRICES[product],
    };
    Market {
        customs: std::array::from_fn(custom),
        driver: None,
        calm: 3,
        phase: Phase::Middle,
    }
}

impl Walk {
    fn call(&mut self, call: Call) {
        let answer = answer::answer(&mut self.book, &call);
        assert!(!answer.starts_with("refused"), "{call:?}: {answer}");
        let Days { text, answers } = &mut self.days;
        text.extend_from_slice(text::line(&call).as_bytes());
        text.push(b'\n');
        answers.extend_from_slice(answer.as_bytes());
        answers.push(b'\n');
    }

    fn book(&self) -> &Book {
        self.book.as_ref().expect("a book was founded")
    }

    /// Weekends are opened too, so left is the calendar days remaining, which fall every day.
    fn day(&mut self, date: Date, checks: usize) {
        let left = date.days_remaining();
        self.call(Call::Open([date.year(), date.month(), date.day(), left]));
        let book = self.book.as_ref().expect("a book was founded");
        let sheets = self.market.draft_all(&mut self.random, book);
        let first_check = self.random.below(8);
        for (place, sheet) in sheets.into_iter().enumerate() {
            self.call(Call::Sheet(sheet));
            // Checks are spread over the day and over the products.
            for check in (place * checks / 8)..((place + 1) * checks / 8) {
                self.check((first_check + check) % 8, date);
            }
        }
        self.call(Call::End);
    }

    /// A check on a listed contract that has not passed, at a price near its limit.
    fn check(&mut self, product: usize, date: Date) {
        let Some(sheet) = self.book().last_ended[product].clone() else {
            return;
        };
        let from = date.contract_month();
        let open: Vec<_> = sheet.iter().filter(|entry| entry.month >= from).collect();
        if open.is_empty() {
            return;
        }
        let entry = open[self.random.below(open.len())];
        let tick = PRODUCTS[product].standard_tick;
        let limit = self.book().limit_today(product);
        let far = self.random.pick(&[0, limit, limit + tick]);
        let Span { lowest, highest } = Span::around(entry.settlement, far, tick);
        let price = self.random.pick(&[lowest, highest]);
        self.call(Call::Check([product as u32, 0, entry.month, price]));
    }
}

#[cfg(test)]
mod tests {
    use super::*;
    use crate::history::replay::answers;

    #[test]
    fn two_years_are_accepted_and_reach_events() {
        for life in LIVES {
            let days = days(life, 10, 800);
            assert!(answers(&days.text) == days.answers, "{life}");
            let answers = String::from_utf8(days.answers).expect("answers are text");
            assert!(!answers.contains("refused"));
            assert_eq!(answers.contains("raised"), life != Life::Under(2014));
            assert_eq!(answers.contains("converted"), life == Life::Carried);
            for word in [
                "opened 1",
                "triggered",
                "held",
                "reverted",
                "within",
                "above",
            ] {
                assert!(answers.contains(word), "{life}: {word}");
            }
        }
    }

    #[test]
    fn the_editions_of_a_carried_life_are_told_apart_by_what_they_raise() {
        let days = days(Life::Carried, 0, 800);
        let answers = String::from_utf8(days.answers).expect("answers are text");
        let halves = answers.split_once("\nconverted\n");
        let (old, new) = halves.expect("the life is carried");
        assert!(!old.contains("raised") && new.contains("raised"));
        let ends = |half: &str| {
            half.lines()
                .filter(|line| line.starts_with("ended"))
                .count()
        };
        assert_eq!([ends(old), ends(new)], [400, 400]);
    }
}
