//! Which contracts a product's sheet lists on a day.

use crate::book::sheet::LARGEST_SHEET;
use crate::book::window::collected_contract;
use crate::book::Book;
use crate::dates::{is_spot, Date};
use crate::products::PRODUCTS;
use crate::testing::random::Random;

/// How a product is listed through a history.
#[derive(Clone, Copy, Debug)]
pub struct Custom {
    /// How many contracts its sheets aim at.
    pub contracts: usize,
    /// One in so many months is left out at first, so that it can enter later.
    pub leaves_out: usize,
    /// One in so many spot contracts is dropped.
    pub drops_spot: usize,
    /// Lists months near the largest of 32 bits.
    pub is_far: bool,
    pub collected: Collected,
    /// About where a new contract settles.
    pub price: u32,
}

/// When a product lists the contracts that windows collect.
#[derive(Clone, Copy, Debug, PartialEq, Eq)]
pub enum Collected {
    /// As any others.
    Any,
    /// Each in its season, from the day on that finds so many settlements in some window.
    Behind(usize),
    Never,
}

/// Today's months: those that have to stay, and new ones.
pub fn months_today(random: &mut Random, book: &Book, product: usize, custom: &Custom) -> Vec<u32> {
    let (date, left) = book.last_opened().expect("a day is open");
    let mut months = stay(random, book, product, custom, (date, left));
    if let Some(month) = due(book, product, custom, date) {
        enter(&mut months, month);
    }
    let enters = months.is_empty() || random.one_in(6) || months.len() + 4 < custom.contracts;
    if enters && custom.is_far && random.one_in(3) {
        enter(&mut months, far_month(random, product));
    }
    if enters {
        fill(random, &mut months, product, custom, date);
    }
    months
}

/// The months of the last ended sheet that stay on.
fn stay(
    random: &mut Random,
    book: &Book,
    product: usize,
    custom: &Custom,
    (date, left): (Date, u32),
) -> Vec<u32> {
    let last = book.last_ended[product].iter().flatten();
    let months = last.map(|entry| entry.month);
    let listed = months.filter(|&month| month >= date.contract_month());
    listed
        .filter(|&month| !is_spot(month, date, left) || !random.one_in(custom.drops_spot))
        .collect()
}

/// The collected contract, if its day has come.
fn due(book: &Book, product: usize, custom: &Custom, date: Date) -> Option<u32> {
    let Collected::Behind(days) = custom.collected else {
        return None;
    };
    if book.windows.iter().all(|window| window.len() < days) {
        return None;
    }
    collected_contract(product, date)
}

/// Whether the month is listed only when it is due, or never.
fn is_withheld(product: usize, custom: &Custom, month: u32) -> bool {
    if custom.collected == Collected::Any {
        return false;
    }
    let mut of_its_year = [1, 5]
        .into_iter()
        .filter_map(|season| Date::new(month / 12, season, 1))
        .map(|date| collected_contract(product, date));
    of_its_year.any(|collected| collected == Some(month))
}

/// Fills up from the near end to the number that the sheet aims at.
fn fill(random: &mut Random, months: &mut Vec<u32>, product: usize, custom: &Custom, date: Date) {
    let from = date.contract_month() + random.below(2) as u32;
    for month in (from..).filter(|&month| PRODUCTS[product].trades(month)) {
        if months.len() >= custom.contracts {
            return;
        }
        if !is_withheld(product, custom, month) && !random.one_in(custom.leaves_out) {
            enter(months, month);
        }
    }
}

/// Puts a month in its place, if it is new and there is room.
fn enter(months: &mut Vec<u32>, month: u32) {
    if months.len() >= LARGEST_SHEET {
        return;
    }
    if let Err(place) = months.binary_search(&month) {
        months.insert(place, month);
    }
}

/// A traded month near the largest of 32 bits, or in the upper half of them.
fn far_month(random: &mut Random, product: usize) -> u32 {
    let half = (1 << 31) + random.below(40) as u32;
    let near_end = u32::MAX - random.below(40) as u32;
    let from = random.pick(&[u32::MAX, u32::MAX, near_end, half]);
    let mut downward = (0..=from).rev();
    downward
        .find(|&month| PRODUCTS[product].trades(month))
        .expect("a month of each year is traded")
}
