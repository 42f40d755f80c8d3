//! Days by hand in June 2024, for the tests of the book.

use super::end::Event;
use super::moves::Contract;
use super::opening::NewLimits;
use super::{Book, Level, Standing, GROUP_COUNT};
use crate::products::PRODUCTS;
use crate::refusal::Refusal;
use crate::verdict::{Span, Verdict};

pub const CORN: usize = 0;
pub const SOYBEANS: usize = 1;
pub const OIL: usize = 2;
pub const MEAL: usize = 3;
pub const CHICAGO_WHEAT: usize = 4;
pub const KC_WHEAT: usize = 5;
pub const OATS: usize = 6;
pub const RICE: usize = 7;

/// July 2024, the first contract of each sheet.
pub const JULY: u32 = 2024 * 12 + 6;

/// Every contract settles here on the first day.
pub const FIRST_SETTLEMENT: u32 = 6_000;

pub const LIMITS: [u32; 8] = [200, 400, 200, 200, 240, 240, 160, 100];

pub const EXPANDED: Standing = Standing {
    level: Level::Expanded,
    marked: false,
};
pub const MARKED: Standing = Standing {
    level: Level::Expanded,
    marked: true,
};

/// Of Corn on the second day.
pub const CORN_SPAN: Span = Span {
    lowest: 5_800,
    highest: 6_200,
};

/// A product, the place of a contract on its sheet, and its change.
pub type Change = (usize, usize, i64);

/// A book and the day of June that comes next.
pub struct Trial {
    pub book: Book,
    pub next_day: u32,
    /// Each product's contracts, with July 2024 first.
    pub months: Vec<Vec<u32>>,
    pub settlements: Vec<Vec<u32>>,
}

/// A 2023 book on its second day, with two sheets in.
pub fn open_book() -> Book {
    open_book_under(2023)
}

/// The same under an edition.
pub fn open_book_under(edition: u32) -> Book {
    let mut trial = Trial::under(edition, LIMITS);
    trial.open();
    trial.file(0);
    trial.file(7);
    trial.book
}

/// The first contracts of a product from a month on.
pub fn contracts(product: usize, from: u32, count: usize) -> Vec<u32> {
    let traded = (from..).filter(|&month| PRODUCTS[product].trades(month));
    traded.take(count).collect()
}

/// The contract at a place of a product's sheet.
pub fn contract(product: usize, place: usize) -> Contract {
    let month = contracts(product, JULY, place + 1)[place];
    Contract { month, product }
}

impl Trial {
    /// A 2023 book after one ended day on which ten contracts of each product settled.
    pub fn new(limits: [u32; 8]) -> Trial {
        Trial::under(2023, limits)
    }

    /// The same under an edition.
    pub fn under(edition: u32, limits: [u32; 8]) -> Trial {
        let months: Vec<Vec<u32>> = (0..8).map(|product| contracts(product, JULY, 10)).collect();
        let mut trial = Trial {
            book: Book::found(edition, limits).expect("fit limits"),
            next_day: 3,
            settlements: vec![vec![FIRST_SETTLEMENT; 10]; 8],
            months,
        };
        trial.day(&[]);
        trial
    }

    /// Opens the next day, weekends included, with June's calendar days remaining as left.
    pub fn open(&mut self) {
        self.open_with(30 - self.next_day);
    }

    pub fn open_with(&mut self, left: u32) {
        let opened = self.book.open(2024, 6, self.next_day, left);
        assert_eq!(opened, Ok([false; 8]));
        self.next_day += 1;
    }

    /// Opens the next day as if the last one had been another.
    pub fn open_after(&mut self, last: [u32; 3]) -> NewLimits {
        self.book.date = Some(last);
        self.book.left = 0;
        let day = self.next_day;
        self.next_day += 1;
        let opened = self.book.open(2024, 6, day, 30 - day);
        opened.expect("an opening")
    }

    pub fn file(&mut self, product: usize) {
        let filed = self.book.file(
            product as u32,
            &self.months[product],
            &self.settlements[product],
        );
        assert_eq!(filed, Ok(()), "product {product}");
    }

    /// A whole day with these changes, all else unchanged.
    pub fn day(&mut self, changes: &[Change]) -> [Event; GROUP_COUNT] {
        self.open();
        self.rest_of_day(changes)
    }

    /// Files a product's sheet with July settled elsewhere, on a copy of the book.
    pub fn filed(&self, product: usize, july: u32) -> Result<(), Refusal> {
        let mut settlements = self.settlements[product].clone();
        settlements[0] = july;
        let mut book = self.book.clone();
        book.file(product as u32, &self.months[product], &settlements)
    }

    /// Orders and sheets of July, at the ends of a product's limit today and one tick beyond them.
    pub fn assert_limit(&self, product: usize, limit: u32) {
        let tick = PRODUCTS[product].standard_tick;
        let last = self.settlements[product][0];
        let span = Span {
            lowest: last - limit,
            highest: last + limit,
        };
        let beyond = Err(Refusal::Beyond);
        for (price, verdict, filed) in [
            (span.highest, Verdict::Within(span), Ok(())),
            (span.highest + tick, Verdict::Above(span), beyond),
            (span.lowest, Verdict::Within(span), Ok(())),
            (span.lowest - tick, Verdict::Below(span), beyond),
        ] {
            let checked = self.book.check(product as u32, 0, JULY, price);
            assert_eq!(checked, Ok(verdict), "{product}: {price}");
            assert_eq!(self.filed(product, price), filed, "{product}: {price}");
        }
    }

    /// The sheets and the end of a day that is open.
    pub fn rest_of_day(&mut self, changes: &[Change]) -> [Event; GROUP_COUNT] {
        for &(product, place, change) in changes {
            let settlement = &mut self.settlements[product][place];
            *settlement = (i64::from(*settlement) + change) as u32;
        }
        (0..8).for_each(|product| self.file(product));
        self.book.end().expect("an end")
    }
}
