//! What checks and bare checks reached.

use super::coupled::{coupled_products, is_widened_by_others};
use super::seasons::Turn;
use super::spans::Limited;
use super::{kind, refusal, Coverage, Seen};
use crate::amounts::{self, LARGEST_LIMIT};
use crate::book::groups::group_of;
use crate::book::{Book, Level};
use crate::dates::{is_spot, Date};
use crate::prices::is_price;
use crate::products::product;

const WANTED: [&str; 44] = [
    "check: refused 2",
    "check: refused 5, no such product",
    "check: refused 5, size not offered",
    "check: refused 5, no such size",
    "check: refused 14, not listed",
    "check: refused 14, first day",
    "check: refused 14, listed but before the day's month",
    "check: refused 8",
    "check: refused 8, although spot",
    "check: refused 8, a standard order on the mini's tick",
    "check: 2 over 5",
    "check: 2 over 8",
    "check: 2 over 14",
    "check: 5 over 14",
    "check: 5 over 8",
    "check: 14 over 8",
    "check: free in the date's month",
    "check: free in the next month with left 0",
    "check: free in the next month with left 1",
    "check: limited in the next month with left 2",
    "check: within, initial level",
    "check: within, expanded level",
    "check: within by E but not by I",
    "check: within by E but not by I under 2014",
    "check: within by E but not by I, kept over a season",
    "check: below in a group brought back, within E",
    "check: above in a group brought back, within E",
    "check: below, initial level",
    "check: below, expanded level",
    "check: above, initial level",
    "check: above, expanded level",
    "check: an end clamped, expanded level",
    "check: mini of product 0",
    "check: mini of product 1",
    "check: mini of product 4",
    "check: with the product's sheet in",
    "check: on a month of 2^31 or more",
    "check: at the largest limit",
    "bare: 5 over 8",
    "bare: 5 over 13",
    "bare: 8 over 13",
    "bare: refused 5",
    "bare: refused 8",
    "bare: refused 13",
];

pub fn wanted() -> Vec<String> {
    let bare = ["free", "within", "below", "above"].map(|verdict| format!("bare: {verdict}"));
    let by_others = coupled_products().flat_map(|product| {
        [
            widened_key(product),
            back_key(product, "below"),
            back_key(product, "above"),
        ]
    });
    WANTED
        .iter()
        .map(|what| what.to_string())
        .chain(bare)
        .chain(by_others)
        .collect()
}

fn widened_key(product: usize) -> String {
    format!("check: within by E but not by I, product {product} widened by others alone")
}

fn back_key(product: usize, verdict: &str) -> String {
    format!("check: {verdict}, within E, product {product} brought back by others alone")
}

pub fn observe(coverage: &mut Coverage, numbers: &[u32; 4], seen: &Seen) {
    match seen.refusal() {
        Some(refusal) => observe_refused(coverage, numbers, seen.before, refusal),
        None => observe_verdict(coverage, numbers, seen),
    }
}

/// Every refusal in the order of the rule, and whether it applies, each judged for itself.
fn rows(numbers: &[u32; 4], book: &Book) -> [(u32, bool); 4] {
    let [number, size, month, price] = *numbers;
    let row = product(number);
    let tick = row.and_then(|row| row.tick(size));
    let day = book.open_day().ok().map(|(date, _)| date);
    let is_before = day.is_some_and(|date: Date| month < date.contract_month());
    let is_listed = row.is_some() && book.last_settlement(number as usize, month).is_some();
    [
        (2, !book.is_open),
        (5, tick.is_none()),
        (14, is_before || !is_listed),
        (8, !is_price(price, tick.unwrap_or(1))),
    ]
}

fn observe_refused(coverage: &mut Coverage, numbers: &[u32; 4], book: &Book, refusal: u32) {
    coverage.count_over("check", refusal, &rows(numbers, book));
    match refusal {
        2 => coverage.count("check: refused 2"),
        5 => observe_product(coverage, numbers),
        14 => observe_not_listed(coverage, numbers, book),
        _ => observe_price(coverage, numbers, book),
    }
}

fn observe_product(coverage: &mut Coverage, numbers: &[u32; 4]) {
    let [number, size, ..] = *numbers;
    coverage.count(match (product(number), size) {
        (None, _) => "check: refused 5, no such product",
        (_, 1) => "check: refused 5, size not offered",
        _ => "check: refused 5, no such size",
    });
}

fn observe_not_listed(coverage: &mut Coverage, numbers: &[u32; 4], book: &Book) {
    let [number, _, month, _] = *numbers;
    let number = number as usize;
    let is_listed = book.last_settlement(number, month).is_some();
    coverage.count(match (book.last_ended[number].is_some(), is_listed) {
        (false, _) => "check: refused 14, first day",
        (true, false) => "check: refused 14, not listed",
        (true, true) => "check: refused 14, listed but before the day's month",
    });
}

fn observe_price(coverage: &mut Coverage, numbers: &[u32; 4], book: &Book) {
    let [number, size, month, price] = *numbers;
    coverage.count("check: refused 8");
    let (date, left) = book.open_day().expect("the day is judged before");
    let is_spot = is_spot(month, date, left);
    coverage.count_if(is_spot, "check: refused 8, although spot");
    let mini = product(number).and_then(|row| row.tick(1));
    let fits_mini = size == 0 && mini.is_some_and(|tick| is_price(price, tick));
    coverage.count_if(
        fits_mini,
        "check: refused 8, a standard order on the mini's tick",
    );
    if !is_spot {
        limited(numbers, book).observe_refused(coverage);
    }
}

/// The order of a check on a listed contract.
fn limited(numbers: &[u32; 4], book: &Book) -> Limited {
    let [number, size, month, price] = *numbers;
    let settlement = book.last_settlement(number as usize, month);
    Limited {
        call: "check",
        is_mini: size == 1,
        tick: product(number).and_then(|row| row.tick(size)).unwrap_or(1),
        settlement: settlement.expect("the month is judged before"),
        limit: book.limit_today(number as usize),
        price,
    }
}

fn observe_verdict(coverage: &mut Coverage, numbers: &[u32; 4], seen: &Seen) {
    let [number, size, month, _] = *numbers;
    let (date, left) = seen.before.open_day().expect("the check was answered");
    let is_next = month == date.contract_month() + 1;
    coverage.count_if(month >= 1 << 31, "check: on a month of 2^31 or more");
    let is_in = seen.before.sheets_in[number as usize].is_some();
    coverage.count_if(is_in, "check: with the product's sheet in");
    if size == 1 {
        coverage.count(format!("check: mini of product {number}"));
    }
    if seen.answer != "free" {
        coverage.count_if(
            is_next && left == 2,
            "check: limited in the next month with left 2",
        );
        return observe_limited(coverage, numbers, seen);
    }
    coverage.count(match is_next {
        true => format!("check: free in the next month with left {left}"),
        false => "check: free in the date's month".to_string(),
    });
}

fn observe_limited(coverage: &mut Coverage, numbers: &[u32; 4], seen: &Seen) {
    let number = numbers[0] as usize;
    let book = seen.before;
    let order = limited(numbers, book);
    let verdict = seen.kind();
    order.observe(coverage, verdict);
    let level = match book.standings[group_of(number)].level {
        Level::Initial => "initial level",
        Level::Expanded => "expanded level",
    };
    coverage.count(format!("check: {verdict}, {level}"));
    let clamped = order.clamped();
    if clamped.lowest || clamped.highest {
        coverage.count(format!("check: an end clamped, {level}"));
    }
    coverage.count_if(order.limit == LARGEST_LIMIT, "check: at the largest limit");
    let limits = book.limits[number];
    let distance = order.price.abs_diff(order.settlement);
    if distance > limits.initial && distance <= limits.expanded {
        observe_between(coverage, book, number, verdict);
    }
}

/// A price that the levels judge differently.
fn observe_between(coverage: &mut Coverage, book: &Book, number: usize, verdict: &str) {
    coverage.count_if(verdict == "within", "check: within by E but not by I");
    coverage.count_if(
        verdict == "within" && book.edition == 2014,
        "check: within by E but not by I under 2014",
    );
    if verdict == "within" && is_widened_by_others(coverage, book, number) {
        coverage.count(widened_key(number));
    }
    match (coverage.turns[group_of(number)], verdict) {
        (Turn::KeptNext | Turn::KeptSkipped, "within") => {
            coverage.count("check: within by E but not by I, kept over a season");
        }
        (Turn::BroughtBack, "below" | "above") => coverage.count(match coverage.renewed[number] {
            true => format!("check: {verdict} in a group brought back, within E"),
            false => back_key(number, verdict),
        }),
        _ => {}
    }
}

pub fn observe_bare(coverage: &mut Coverage, numbers: &[u32; 6], answer: &str) {
    let [number, size, settlement, amount, spot, price] = *numbers;
    let row = product(number);
    let tick = row.and_then(|row| row.tick(size)).unwrap_or(1);
    let is_settlement = is_price(settlement, row.map_or(1, |row| row.standard_tick));
    let is_price_false = !is_settlement || !is_price(price, tick);
    let is_unfit = match row {
        Some(row) => !amounts::fits(row, amount),
        None => amount == 0 || amount > LARGEST_LIMIT,
    };
    let limited = Limited {
        call: "bare",
        is_mini: size == 1,
        tick,
        settlement,
        limit: amount,
        price,
    };
    coverage.count(format!("bare: {}", kind(answer)));
    match refusal(answer) {
        Some(5) => {
            coverage.count_if(is_price_false, "bare: 5 over 8");
            coverage.count_if(is_unfit, "bare: 5 over 13");
        }
        Some(8) if is_unfit => coverage.count("bare: 8 over 13"),
        Some(8) if is_settlement && spot == 0 => limited.observe_refused(coverage),
        None if spot == 0 => limited.observe(coverage, kind(answer)),
        _ => {}
    }
}
