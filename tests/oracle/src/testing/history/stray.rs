//! Calls beside the course of the day: checks, bare checks, lines that are no call.

use super::market::at_an_edge;
use crate::amounts::LARGEST_LIMIT;
use crate::book::edition::EDITIONS;
use crate::book::Book;
use crate::history::answer;
use crate::history::call::{Call, FoundCall, SheetCall};
use crate::prices::LARGEST_PRICE;
use crate::products::{Product, PRODUCTS};
use crate::testing::random::Random;
use crate::verdict::Span;

/// Limits that found a book.
pub fn fit_limits(random: &mut Random) -> [u32; 8] {
    std::array::from_fn(|product| {
        let row = &PRODUCTS[product];
        let most = random.pick(&[0, 0, 3, 20, 20, 200]);
        row.floor + row.step * random.between(0, most)
    })
}

/// Numbers that are no edition, on either side of each that is.
pub const FALSE_EDITIONS: [u32; 6] = [0, 2013, 2015, 2022, 2024, u32::MAX];

/// A founding under an unknown edition, with unfit limits, or both.
pub fn false_founding(random: &mut Random) -> Call {
    let fit = fit_limits(random);
    let unfit = unfit_limits(random);
    let edition = random.pick(&EDITIONS);
    let false_edition = random.pick(&FALSE_EDITIONS);
    let (edition, limits) = random.pick(&[
        (edition, unfit),
        (false_edition, fit),
        (false_edition, unfit),
    ]);
    Call::Found(FoundCall { edition, limits })
}

/// Limits of which one or more are unfit.
fn unfit_limits(random: &mut Random) -> [u32; 8] {
    let mut limits = fit_limits(random);
    for _ in 0..random.between(1, 2) {
        let product = random.below(8);
        let row = &PRODUCTS[product];
        let drawn = random.word() | 1;
        let choices = [
            0,
            row.floor - row.step,
            row.floor + 1,
            1_000_000 + row.step,
            drawn,
        ];
        limits[product] = random.pick(&choices);
    }
    limits
}

/// Whether a book refuses a call.
pub fn is_refused(book: &Option<Book>, call: &Call) -> bool {
    let mut book = book.clone();
    answer::answer(&mut book, call).starts_with("refused")
}

/// The last ended sheet again, at times for no product; an empty one, where there is none.
pub fn last_sheet(random: &mut Random, book: &Book, product: usize) -> SheetCall {
    let last = book.last_ended[product].iter().flatten();
    let product = product as u32;
    SheetCall {
        product: random.pick(&[product, product, 8]),
        months: last.clone().map(|entry| entry.month).collect(),
        settlements: last.map(|entry| entry.settlement).collect(),
    }
}

/// Product, size, month and price of a check, mostly on a listed contract at the ends of its span.
pub fn order(random: &mut Random, book: &Book) -> [u32; 4] {
    let product = random.below(8);
    order_of(random, book, product)
}

/// An order of a given product.
pub fn order_of(random: &mut Random, book: &Book, product: usize) -> [u32; 4] {
    let row = &PRODUCTS[product];
    let size = match row.mini_tick {
        Some(_) => random.below(2) as u32,
        None => 0,
    };
    let month = listed_month(random, book, product);
    let price = price(random, book, product, (size, month));
    [product as u32, size, month, price]
}

/// An order at an end of the span that the expanded level gives.
pub fn wide_order(random: &mut Random, book: &Book, product: usize) -> [u32; 4] {
    let [number, size, month, _] = order_of(random, book, product);
    let tick = PRODUCTS[product].tick(size).unwrap_or(1);
    let last = book.last_settlement(product, month).unwrap_or(6_000);
    let Span { lowest, highest } = Span::around(last, book.limits[product].expanded, tick);
    [number, size, month, random.pick(&[lowest, highest])]
}

/// A month of the last ended sheet; any, where there is none.
fn listed_month(random: &mut Random, book: &Book, product: usize) -> u32 {
    match &book.last_ended[product] {
        Some(sheet) if random.one_in(3) => sheet[0].month,
        Some(sheet) => sheet[random.below(sheet.len())].month,
        None => 24_294,
    }
}

fn price(random: &mut Random, book: &Book, product: usize, (size, month): (u32, u32)) -> u32 {
    let tick = PRODUCTS[product].tick(size).unwrap_or(1);
    let last = book.last_settlement(product, month).unwrap_or(6_000);
    let limits = book.limits[product];
    let limit = random.pick(&[limits.initial, limits.expanded, book.limit_today(product)]);
    let any = tick * random.between(1, LARGEST_PRICE / tick);
    let near = price_near(random, Span::around(last, limit, tick), tick);
    random.pick(&[last, near, near, near, near, any])
}

/// At an end of a span, one tick beyond it, which may be no price, or anywhere inside.
fn price_near(random: &mut Random, span: Span, tick: u32) -> u32 {
    let Span { lowest, highest } = span;
    let inside = tick * random.between(lowest / tick, highest / tick);
    random.pick(&[lowest, lowest - tick, highest, highest + tick, inside])
}

/// An order with one or two faults.
pub fn false_order(random: &mut Random, book: &Book) -> [u32; 4] {
    let mut numbers = order(random, book);
    for _ in 0..random.between(1, 2) {
        match random.below(4) {
            0 => numbers[0] = random.pick(&[8, 9, 256, u32::MAX]),
            1 => numbers[1] = random.pick(&[1, 2, 256, u32::MAX]),
            2 => numbers[2] = random.pick(&[0, 24_290, numbers[2] ^ 1, u32::MAX, u32::MAX - 1]),
            _ => numbers[3] = random.pick(&[0, numbers[3] | 1, LARGEST_PRICE + 2, u32::MAX]),
        }
    }
    numbers
}

/// A bare check, at times with one or two faults.
pub fn bare(random: &mut Random) -> Call {
    let product = random.below(8);
    let row = &PRODUCTS[product];
    let most = random.pick(&[2_000, 2_000, LARGEST_LIMIT / row.step]);
    let amount = row.step * random.between(row.floor / row.step, most);
    let settlement = bare_settlement(random, row, amount);
    let spot = random.pick(&[0, 0, 0, 1, 256, u32::MAX]);
    let size = u32::from(row.mini_tick.is_some() && random.one_in(2));
    let tick = row.tick(size).unwrap_or(1);
    let near = price_near(random, Span::around(settlement, amount, tick), tick);
    let any = tick * random.between(1, LARGEST_PRICE / tick);
    let price = random.pick(&[near, near, near, any]);
    let mut numbers = [product as u32, size, settlement, amount, spot, price];
    for _ in 0..random.pick(&[0, 0, 1, 2]) {
        match random.below(4) {
            0 => numbers[0] = random.pick(&[8, u32::MAX]),
            1 => numbers[2] = random.pick(&[0, settlement + 1, LARGEST_PRICE + 2]),
            2 => numbers[3] = random.pick(&[0, amount + 1, row.floor - row.step, 2_000_050]),
            _ => numbers[5] = random.pick(&[0, price | 1, u32::MAX]),
        }
    }
    Call::Bare(numbers)
}

/// Anywhere, or where an end of the span lies near the first or the last price.
fn bare_settlement(random: &mut Random, row: &Product, amount: u32) -> u32 {
    let tick = row.standard_tick;
    let any = tick * random.between(1, LARGEST_PRICE / tick);
    let small = tick * random.between(1, row.floor / tick);
    let edge = at_an_edge(random, amount, tick);
    random.pick(&[any, any, any, small, LARGEST_PRICE - small, edge])
}

/// A product whose group is expanded, if there is one.
pub fn lively_product(random: &mut Random, book: &Book) -> usize {
    let drawn = random.below(8);
    let mut products = (0..8).map(|step| (drawn + step) % 8);
    let is_lively = |&product: &usize| book.limit_today(product) > book.limits[product].initial;
    products.find(is_lively).unwrap_or(drawn)
}

const NO_CALLS: [&str; 48] = [
    " ",
    "  ",
    " end",
    "end ",
    "end\r",
    "end\t",
    "\tend",
    "End",
    "END",
    "end 1",
    "ends",
    "convert 1",
    "convert 2023",
    "convert ",
    "Convert",
    "converted",
    "book 1",
    "book ",
    "open",
    "open 2024 6 27",
    "open 2024 6 27 1 1",
    "open 2024  6 27 1",
    "open 2024 6 27 -1",
    "open +2024 6 27 1",
    "open 2024 6 27 4294967296",
    "open 2024 6 27 99999999999999999999999999",
    "open 2024 6 27 1.0",
    "open 2024-6-27 1",
    "found",
    "found 200 400 200 200 240 240 160 100",
    "found 2023 200 400 200 200 240 240 160",
    "found 2023 200 400 200 200 240 240 160 100 100",
    "found -2023 200 400 200 200 240 240 160 100",
    "found 4294967296 200 400 200 200 240 240 160 100",
    "sheet",
    "sheet 0",
    "sheet 0 months",
    "sheet 0 months 24294",
    "sheet 0 months 24294 6000",
    "sheet 0 settlements 6000 months 24294",
    "sheet 0 months 24294 settlements 6000 settlements 6000",
    "sheet 0 months 24294 settlements 6000 ",
    "sheet 0 months  settlements",
    "sheet 0 months 4294967296 settlements 1",
    "sheet months 24294 settlements 6000",
    "check 0 0 24294",
    "bare 0 0 6000 200 0 6000 0",
    "opened 0 0 0 0 0 0 0 0",
];

/// A line that is no call, passed over or not.
pub fn no_call(random: &mut Random) -> Vec<u8> {
    match random.below(12) {
        0 => Vec::new(),
        1 => b"# end".to_vec(),
        2 => vec![b'#'; random.pick(&[1, 2, 100_000])],
        3 => vec![random.bits() as u8 | 0x80; 1 + random.below(9)],
        4 => long_no_call(random),
        _ => random.pick(&NO_CALLS).as_bytes().to_vec(),
    }
}

/// A long sheet whose last number has more than 32 bits, or a number that never ends.
fn long_no_call(random: &mut Random) -> Vec<u8> {
    let months = " 24294".repeat(random.pick(&[16, 17, 700]));
    match random.one_in(2) {
        true => format!("sheet 0 months{months} settlements 1 4294967296").into_bytes(),
        false => format!("check 0 0 24294 {}", "9".repeat(3_000)).into_bytes(),
    }
}
