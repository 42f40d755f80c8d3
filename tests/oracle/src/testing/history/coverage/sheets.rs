//! What sheets reached: refusals in order, by entry too, and the shapes that were filed.

use super::coupled::{coupled_products, is_widened_by_others};
use super::seasons::Turn;
use super::{Coverage, Seen};
use crate::amounts::LARGEST_LIMIT;
use crate::book::groups::group_of;
use crate::book::sheet::{self, LARGEST_SHEET};
use crate::book::{Book, Level};
use crate::dates::{is_spot, Date};
use crate::history::call::SheetCall;
use crate::prices::{is_price, LARGEST_PRICE};
use crate::products::{product, Product};

const WANTED: [&str; 39] = [
    "sheet: refused 2",
    "sheet: refused 5",
    "sheet: refused 11",
    "sheet: refused 6, empty",
    "sheet: refused 6, lengths differ",
    "sheet: refused 6, one length is 0",
    "sheet: refused 6, 17 entries",
    "sheet: refused 6, over 1000 entries",
    "sheet: refused 6, over 10000 entries",
    "sheet: refused 7, not traded",
    "sheet: refused 7, equal months",
    "sheet: refused 7, descending",
    "sheet: refused 7, before the date's month",
    "sheet: refused 8, 0",
    "sheet: refused 8, too large",
    "sheet: refused 8, off the tick",
    "sheet: refused 9",
    "sheet: refused 9, next month with left 2",
    "sheet: refused 10, up",
    "sheet: refused 10, down",
    "sheet: refused 10, by one tick",
    "sheet: refused 10, at the expanded level",
    "sheet: refused 10 in a group brought back, within E",
    "sheet: filed with 1 entry",
    "sheet: filed with 16 entries",
    "sheet: filed on a first day",
    "sheet: filed with month 4294967294",
    "sheet: filed with a month of 2^31 or more",
    "sheet: filed at the limit, up",
    "sheet: filed at the limit, down",
    "sheet: filed at the expanded limit",
    "sheet: filed at the expanded limit under 2014",
    "sheet: filed with a spot contract beyond the limit",
    "sheet: filed with a contract that enters at the far end",
    "sheet: filed with a contract that enters between others",
    "sheet: filed without a contract that left, date's month or earlier",
    "sheet: filed without a contract that left, next month with left 0",
    "sheet: filed without a contract that left, next month with left 1",
    "sheet: filed at the largest limit",
];

/// Pairs of faults, the first of which is answered.
const PAIRS: [(u32, u32); 22] = [
    (2, 5),
    (2, 6),
    (2, 7),
    (2, 8),
    (5, 6),
    (5, 7),
    (5, 8),
    (11, 6),
    (11, 7),
    (11, 8),
    (11, 9),
    (11, 10),
    (6, 7),
    (6, 8),
    (6, 9),
    (6, 10),
    (7, 8),
    (7, 9),
    (7, 10),
    (8, 9),
    (8, 10),
    (9, 10),
];

pub fn wanted() -> Vec<String> {
    let fixed = WANTED.iter().map(|what| what.to_string());
    let pairs = PAIRS.iter().map(|&(first, later)| pair(first, later));
    let by_entry = PAIRS.iter().filter(|(first, _)| (7..=9).contains(first));
    let by_entry = by_entry.flat_map(|&(first, later)| {
        [true, false].map(|is_earlier| pair_by_entry(first, later, is_earlier))
    });
    let by_others = coupled_products().flat_map(|product| {
        let edges = [true, false].map(|is_up| EDGES.map(|edge| widened_key(product, edge, is_up)));
        edges.concat().into_iter().chain([back_key(product)])
    });
    fixed
        .chain(pairs)
        .chain(by_entry)
        .chain(by_others)
        .collect()
}

fn pair(first: u32, later: u32) -> String {
    format!("sheet: {first} over {later}")
}

fn pair_by_entry(first: u32, later: u32, is_earlier: bool) -> String {
    let place = if is_earlier { "an earlier" } else { "a later" };
    format!("sheet: {first} over {later} at {place} entry")
}

/// Either side of E, for a product that others alone widened.
const EDGES: [&str; 2] = ["filed at E", "refused 10 by one tick beyond E"];

fn widened_key(product: usize, edge: &str, is_up: bool) -> String {
    let way = if is_up { "up" } else { "down" };
    format!("sheet: {edge}, {way}, product {product} widened by others alone")
}

fn back_key(product: usize) -> String {
    format!("sheet: refused 10, within E, product {product} brought back by others alone")
}

/// A row that applies, with the first entry to which it does, where it is of entries.
type Fault = (u32, Option<usize>);

pub fn observe(coverage: &mut Coverage, call: &SheetCall, seen: &Seen) {
    let faults = faults(call, seen.before);
    let Some(refusal) = seen.refusal() else {
        assert!(faults.is_empty(), "a filed sheet has no fault");
        return observe_filed(coverage, call, seen.before);
    };
    let (first, place) = *faults.first().expect("a refused sheet has a fault");
    assert_eq!(first, refusal, "the first that applies");
    for &(later, later_place) in &faults[1..] {
        coverage.count(pair(first, later));
        if let (Some(place), Some(later_place)) = (place, later_place) {
            if place != later_place {
                coverage.count(pair_by_entry(first, later, later_place < place));
            }
        }
    }
    observe_refused(coverage, call, seen.before, (first, place));
}

/// Every row that applies, in the order of the rule, each judged for itself.
fn faults(call: &SheetCall, book: &Book) -> Vec<Fault> {
    let row = product(call.product);
    let day = book.open_day().ok();
    let mut faults = Vec::new();
    let mut fault = |number, place: Option<usize>, applies| {
        if applies {
            faults.push((number, place));
        }
    };
    fault(2, None, day.is_none());
    fault(5, None, row.is_none());
    let is_in = row.is_some() && book.sheets_in[call.product as usize].is_some();
    fault(11, None, is_in);
    fault(
        6,
        None,
        sheet::is_misshapen(&call.months, &call.settlements),
    );
    let months = first_false_month(row, &call.months, day.map(|(date, _)| date));
    fault(7, months, months.is_some());
    let settlements = first_false_settlement(row, &call.settlements);
    fault(8, settlements, settlements.is_some());
    if let (Some(_), Some((date, left))) = (row, day) {
        let absent = first_absent(call, book, date, left);
        fault(9, absent, absent.is_some());
        let beyond = first_beyond(call, book, date, left);
        fault(10, beyond, beyond.is_some());
    }
    faults
}

fn first_false_month(row: Option<&Product>, months: &[u32], date: Option<Date>) -> Option<usize> {
    (0..months.len()).find(|&place| {
        let month = months[place];
        let is_untraded = row.is_some_and(|row| !row.trades(month));
        let is_before = date.is_some_and(|date| month < date.contract_month());
        is_untraded || is_before || (place > 0 && month <= months[place - 1])
    })
}

fn first_false_settlement(row: Option<&Product>, settlements: &[u32]) -> Option<usize> {
    let tick = row.map_or(1, |row| row.standard_tick);
    let mut judged = settlements.iter();
    judged.position(|&settlement| !is_price(settlement, tick))
}

/// The place that the first missing contract would have.
fn first_absent(call: &SheetCall, book: &Book, date: Date, left: u32) -> Option<usize> {
    let last = book.last_ended[call.product as usize].iter().flatten();
    let mut due = last.filter(|entry| !is_spot(entry.month, date, left));
    let missing = due.find(|entry| !call.months.contains(&entry.month))?;
    let nearer = call.months.iter().filter(|&&month| month < missing.month);
    Some(nearer.count())
}

fn first_beyond(call: &SheetCall, book: &Book, date: Date, left: u32) -> Option<usize> {
    let entries = sheet::entries(&call.months, &call.settlements);
    let mut judged = entries.iter();
    judged.position(|entry| {
        !is_spot(entry.month, date, left) && book.is_beyond(call.product as usize, entry)
    })
}

fn observe_refused(coverage: &mut Coverage, call: &SheetCall, book: &Book, fault: Fault) {
    match fault {
        (6, _) => observe_shape(coverage, call),
        (7, Some(place)) => observe_month(coverage, call, book, place),
        (8, Some(place)) => coverage.count(match call.settlements[place] {
            0 => "sheet: refused 8, 0",
            settlement if settlement > LARGEST_PRICE => "sheet: refused 8, too large",
            _ => "sheet: refused 8, off the tick",
        }),
        (9, _) => observe_absent(coverage, call, book),
        (10, Some(place)) => observe_beyond(coverage, call, book, place),
        (number, _) => coverage.count(format!("sheet: refused {number}")),
    }
}

fn observe_shape(coverage: &mut Coverage, call: &SheetCall) {
    let lengths = (call.months.len(), call.settlements.len());
    coverage.count(match lengths {
        (0, 0) => "sheet: refused 6, empty",
        (0, _) | (_, 0) => "sheet: refused 6, one length is 0",
        (months, settlements) if months != settlements => "sheet: refused 6, lengths differ",
        (17, _) => "sheet: refused 6, 17 entries",
        (10_001.., _) => "sheet: refused 6, over 10000 entries",
        (1_001.., _) => "sheet: refused 6, over 1000 entries",
        _ => "sheet: refused 6, over 17 entries",
    });
}

fn observe_month(coverage: &mut Coverage, call: &SheetCall, book: &Book, place: usize) {
    let month = call.months[place];
    let row = product(call.product).expect("the product is judged before");
    let (date, _) = book.open_day().expect("the day is judged before");
    let nearer = place.checked_sub(1).map(|place| call.months[place]);
    coverage.count(match nearer {
        _ if !row.trades(month) => "sheet: refused 7, not traded",
        Some(nearer) if nearer == month => "sheet: refused 7, equal months",
        Some(nearer) if nearer > month => "sheet: refused 7, descending",
        _ => {
            assert!(month < date.contract_month());
            "sheet: refused 7, before the date's month"
        }
    });
}

fn observe_absent(coverage: &mut Coverage, call: &SheetCall, book: &Book) {
    coverage.count("sheet: refused 9");
    let (date, left) = book.open_day().expect("the day is judged before");
    let next = date.contract_month() + 1;
    let was_listed = book.last_settlement(call.product as usize, next).is_some();
    let is_absent = was_listed && !call.months.contains(&next);
    coverage.count_if(
        is_absent && left == 2,
        "sheet: refused 9, next month with left 2",
    );
}

fn observe_beyond(coverage: &mut Coverage, call: &SheetCall, book: &Book, place: usize) {
    let number = call.product as usize;
    let last = book.last_settlement(number, call.months[place]);
    let last = last.expect("a contract beyond its limit has a change");
    let settlement = call.settlements[place];
    coverage.count(match settlement > last {
        true => "sheet: refused 10, up",
        false => "sheet: refused 10, down",
    });
    let limit = book.limit_today(number);
    let tick = product(call.product).map_or(1, |row| row.standard_tick);
    let is_one_tick = settlement.abs_diff(last) == limit + tick;
    coverage.count_if(is_one_tick, "sheet: refused 10, by one tick");
    let is_expanded = book.standings[group_of(number)].level == Level::Expanded;
    coverage.count_if(is_expanded, "sheet: refused 10, at the expanded level");
    if is_one_tick && is_widened_by_others(coverage, book, number) {
        coverage.count(widened_key(number, EDGES[1], settlement > last));
    }
    if coverage.turns[group_of(number)] == Turn::BroughtBack {
        observe_brought_back(coverage, call, book);
    }
}

/// A sheet that the group's level before would have allowed.
fn observe_brought_back(coverage: &mut Coverage, call: &SheetCall, book: &Book) {
    let number = call.product as usize;
    let mut expanded = book.clone();
    expanded.standings[group_of(number)].level = Level::Expanded;
    let filed = expanded.file(call.product, &call.months, &call.settlements);
    if filed.is_err() {
        return;
    }
    coverage.count(match coverage.renewed[number] {
        true => "sheet: refused 10 in a group brought back, within E".to_string(),
        false => back_key(number),
    });
}

fn observe_filed(coverage: &mut Coverage, call: &SheetCall, book: &Book) {
    let months = &call.months;
    coverage.count_if(months.len() == 1, "sheet: filed with 1 entry");
    coverage.count_if(
        months.len() == LARGEST_SHEET,
        "sheet: filed with 16 entries",
    );
    let has_last = months.contains(&4_294_967_294);
    coverage.count_if(has_last, "sheet: filed with month 4294967294");
    let is_far = months.iter().any(|&month| month >= 1 << 31);
    coverage.count_if(is_far, "sheet: filed with a month of 2^31 or more");
    let number = call.product as usize;
    let is_largest = book.limits[number].initial == LARGEST_LIMIT;
    coverage.count_if(is_largest, "sheet: filed at the largest limit");
    if book.last_ended[number].is_none() {
        return coverage.count("sheet: filed on a first day");
    }
    observe_moves(coverage, call, book);
    observe_entering(coverage, call, book);
    observe_leaving(coverage, call, book);
}

fn observe_moves(coverage: &mut Coverage, call: &SheetCall, book: &Book) {
    let (date, left) = book.open_day().expect("the sheet was filed");
    let number = call.product as usize;
    let limit = book.limit_today(number);
    let is_expanded = limit != book.limits[number].initial;
    for (&month, &settlement) in call.months.iter().zip(&call.settlements) {
        let Some(last) = book.last_settlement(number, month) else {
            continue;
        };
        let size = settlement.abs_diff(last);
        if is_spot(month, date, left) {
            coverage.count_if(
                size > limit,
                "sheet: filed with a spot contract beyond the limit",
            );
            continue;
        }
        let is_up = settlement > last;
        coverage.count_if(size == limit && is_up, "sheet: filed at the limit, up");
        coverage.count_if(size == limit && !is_up, "sheet: filed at the limit, down");
        let is_at_e = size == limit && is_expanded;
        coverage.count_if(is_at_e, "sheet: filed at the expanded limit");
        coverage.count_if(
            is_at_e && book.edition == 2014,
            "sheet: filed at the expanded limit under 2014",
        );
        if size == limit && is_widened_by_others(coverage, book, number) {
            coverage.count(widened_key(number, EDGES[0], is_up));
        }
    }
}

fn observe_entering(coverage: &mut Coverage, call: &SheetCall, book: &Book) {
    let number = call.product as usize;
    let is_old = |month: u32| book.last_settlement(number, month).is_some();
    for (place, &month) in call.months.iter().enumerate() {
        if is_old(month) {
            continue;
        }
        let is_between = call.months[place..].iter().any(|&later| is_old(later));
        coverage.count(match is_between {
            true => "sheet: filed with a contract that enters between others",
            false => "sheet: filed with a contract that enters at the far end",
        });
    }
}

fn observe_leaving(coverage: &mut Coverage, call: &SheetCall, book: &Book) {
    let (date, left) = book.open_day().expect("the sheet was filed");
    let last = book.last_ended[call.product as usize].iter().flatten();
    for gone in last.filter(|entry| !call.months.contains(&entry.month)) {
        let how = match gone.month > date.contract_month() {
            true => format!("next month with left {left}"),
            false => "date's month or earlier".to_string(),
        };
        coverage.count(format!("sheet: filed without a contract that left, {how}"));
    }
}
