//! From February into May 2024 by calls alone: windows that just fill or just do not, on groups that are expanded.

use super::by_hand::{contracts, CORN, EXPANDED, JULY, LIMITS, MARKED, MEAL, OATS};
use super::end::Event;
use super::moves::Contract;
use super::{Book, Entry, Standing, GROUP_COUNT};
use crate::dates::Date;
use crate::refusal::Refusal;

const INITIAL: Standing = Standing::INITIAL;

/// Where the July contracts settle: at 6,000, or for Oats where 7 % are below the floor of their limit.
const JULY_SETTLEMENTS: [u32; 8] = [6_000, 6_000, 6_000, 6_000, 6_000, 6_000, 2_000, 6_000];

/// When a product's July contract enters the sheet, as month and day. Windows rest after 15 April, so that 2 March is the
/// last day for 45 settlements, and 3 March gives 44.
const ENTERS: [Option<(u32, u32)>; 8] = [
    Some((2, 1)),
    Some((3, 3)),
    Some((3, 2)),
    None,
    Some((3, 3)),
    None,
    Some((3, 2)),
    Some((3, 3)),
];

/// A book, and where the first contract after July of each product settled last. That one moves.
struct Spring {
    book: Book,
    later: [i64; 8],
}

fn may(day: u32) -> Date {
    Date::new(2024, 5, day).expect("a true date")
}

/// The first contract after July.
fn later(product: usize) -> Contract {
    let month = contracts(product, JULY + 1, 1)[0];
    Contract { month, product }
}

impl Spring {
    fn open(&mut self, date: Date) -> [bool; 8] {
        let left = date.days_remaining();
        let opened = self.book.open(date.year(), date.month(), date.day(), left);
        opened.expect("an opening")
    }

    /// Files a product's sheet, on which the contract after July moves.
    fn file(&mut self, product: usize, change: i64) -> Result<(), Refusal> {
        let (date, _) = self.book.open_day()?;
        let is_listed = ENTERS[product].is_some_and(|first| first <= (date.month(), date.day()));
        let july = Entry {
            month: JULY,
            settlement: JULY_SETTLEMENTS[product],
        };
        let moved = Entry {
            month: later(product).month,
            settlement: (self.later[product] + change) as u32,
        };
        let sheet: Vec<Entry> = is_listed
            .then_some(july)
            .into_iter()
            .chain([moved])
            .collect();
        let months: Vec<u32> = sheet.iter().map(|entry| entry.month).collect();
        let settlements: Vec<u32> = sheet.iter().map(|entry| entry.settlement).collect();
        self.book.file(product as u32, &months, &settlements)?;
        self.later[product] += change;
        Ok(())
    }

    /// The sheets that are not in yet, and the end.
    fn end(&mut self, changes: [i64; 8]) -> [Event; GROUP_COUNT] {
        for (product, change) in changes.into_iter().enumerate() {
            assert_eq!(self.file(product, change), Ok(()), "product {product}");
        }
        self.book.end().expect("an end")
    }

    fn day(&mut self, date: Date, changes: [i64; 8]) -> [Event; GROUP_COUNT] {
        assert_eq!(self.open(date), [false; 8], "{date:?}");
        self.end(changes)
    }
}

/// Every day to the end of April; every group comes to it expanded, and all but Rice marked.
fn april_ended() -> Spring {
    let mut spring = Spring {
        book: Book::found(2023, LIMITS).expect("fit limits"),
        later: [6_000; 8],
    };
    let days = std::iter::successors(Date::new(2024, 2, 1), |day| day.next());
    for date in days.take_while(|&date| date < may(1)) {
        let changes = match (date.month(), date.day()) {
            (4, 29) => [200, 0, 0, 200, 240, 240, 160, 100],
            (4, 30) => [320, 0, 0, 300, 360, 360, 240, 100],
            _ => [0; 8],
        };
        spring.day(date, changes);
    }
    spring
}

fn lengths(book: &Book) -> [usize; 8] {
    book.windows.each_ref().map(Vec::len)
}

#[test]
fn april_ends_with_some_windows_full_and_every_group_expanded() {
    let book = april_ended().book;
    assert_eq!(lengths(&book), [45, 44, 45, 0, 44, 0, 45, 44]);
    let standings = [MARKED, MARKED, MARKED, MARKED, EXPANDED];
    assert_eq!(book.standings, standings);
    assert_eq!(book.limits.map(|limits| limits.initial), LIMITS);
}

#[test]
fn may_brings_back_corn_the_complex_and_oats_alone() {
    let mut spring = april_ended();
    let renewed = [true, false, true, false, false, false, true, false];
    assert_eq!(spring.open(may(1)), renewed);
    let book = &spring.book;
    let standings = [INITIAL, INITIAL, MARKED, INITIAL, EXPANDED];
    assert_eq!(book.standings, standings);
    // Oats got new limits, and they are the old ones.
    let initials = [440, 400, 400, 200, 240, 240, LIMITS[OATS], 100];
    assert_eq!(book.limits.map(|limits| limits.initial), initials);
    assert_eq!(lengths(book), [0; 8]);
}

#[test]
fn the_first_days_of_may_go_on_from_there() {
    let mut spring = april_ended();
    spring.open(may(1));
    for (product, expanded) in [(CORN, 680), (MEAL, 300), (OATS, 240)] {
        let filed = spring.file(product, expanded);
        assert_eq!(filed, Err(Refusal::Beyond), "{product}");
    }
    let first = [
        Event::Triggered(later(0)),
        Event::Triggered(later(3)),
        Event::Raised(later(4)),
        Event::Quiet,
        Event::Held(later(7)),
    ];
    assert_eq!(spring.end([440, 0, 0, 200, 360, 0, 158, 150]), first);
    let second = [
        Event::Held(later(0)),
        Event::Held(later(3)),
        Event::Quiet,
        Event::Triggered(later(6)),
        Event::Raised(later(7)),
    ];
    assert_eq!(
        spring.day(may(2), [680, 0, 0, 300, 0, 0, 160, -150]),
        second
    );
    let third = [
        Event::Raised(later(0)),
        Event::Raised(later(3)),
        Event::Quiet,
        Event::Held(later(6)),
        Event::Quiet,
    ];
    assert_eq!(spring.day(may(3), [-680, 0, 0, 300, 0, 0, 240, 0]), third);
    let initials = [680, 600, 600, 300, 360, 360, 160, 150];
    assert_eq!(spring.book.limits.map(|limits| limits.initial), initials);
}
