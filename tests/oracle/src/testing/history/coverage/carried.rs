//! What books reached that a conversion carried from 2014 to 2023: by what they had before it, and by the rule after it.

use super::ends::event_key;
use super::event::{self, Event};
use super::past::Since;
use super::seasons::Turn;
use super::{Coverage, Seen};
use crate::book::edition_2014;
use crate::book::end;
use crate::book::groups::group_of;
use crate::book::window::LARGEST_WINDOW;
use crate::book::{Level, GROUP_COUNT, PRODUCT_COUNT};
use crate::history::call::Call;

/// By the day, the left, the sheets and the limits that the book had before.
const WANTED: [&str; 15] = [
    "book: line before a carried book's next day",
    "open: refused 4 by the day before a conversion",
    "open: refused 16 by the left before a conversion",
    "open: left smaller than before a conversion",
    "open: first opening, after a conversion",
    "season: next at once after a conversion, a window full",
    "season: next at once after a conversion, none full",
    "season: skipped at once after a conversion, a window full",
    "sheet: refused 9 by a sheet of before a conversion",
    "sheet: refused 10 by a sheet of before a conversion",
    "check: free by a sheet of before a conversion",
    "check: within by a sheet of before a conversion",
    "check: below by a sheet of before a conversion",
    "check: above by a sheet of before a conversion",
    "end: triggered by a change from before a conversion",
];

/// What no end under 2014 makes of a group.
const EVENTS: [&str; 4] = [
    "triggered after a conversion, quiet under 2014",
    "held after a conversion, reverted under 2014",
    "marked after a conversion",
    "raised after a conversion",
];

/// Where the settlements of a full window are from.
const WINDOWS: [&str; 2] = ["before a conversion", "either side of a conversion"];

pub fn wanted() -> Vec<String> {
    let fixed = WANTED.iter().map(|what| what.to_string());
    let events = (0..GROUP_COUNT).flat_map(|group| EVENTS.map(|what| event_key(group, what)));
    let windows =
        (0..PRODUCT_COUNT).flat_map(|product| WINDOWS.map(|from| window_key(product, from)));
    let back = (0..GROUP_COUNT).map(back_key);
    fixed.chain(events).chain(windows).chain(back).collect()
}

fn window_key(product: usize, from: &str) -> String {
    format!("season: product {product} renewed by a window from {from}")
}

fn back_key(group: usize) -> String {
    format!("season: group {group} brought back by a window from either side of a conversion")
}

/// Takes note of a call on a book that was carried.
pub fn observe(coverage: &mut Coverage, call: &Call, seen: &Seen) {
    let Some(since) = coverage.past.carried else {
        return;
    };
    match call {
        Call::Open(_) => observe_opening(coverage, seen, &since),
        Call::Sheet(_) if since.ends == 0 => observe_sheet(coverage, seen),
        Call::Check(_) if since.ends == 0 => observe_check(coverage, seen),
        Call::End if seen.refusal().is_none() => observe_end(coverage, seen, &since),
        Call::Book if since.openings == 0 => {
            coverage.count("book: line before a carried book's next day");
        }
        _ => {}
    }
}

fn observe_opening(coverage: &mut Coverage, seen: &Seen, since: &Since) {
    if since.openings == 0 {
        match seen.refusal() {
            None => observe_next(coverage, seen),
            Some(4) => coverage.count("open: refused 4 by the day before a conversion"),
            Some(16) => coverage.count("open: refused 16 by the left before a conversion"),
            Some(_) => {}
        }
    }
    if seen.refusal().is_none() {
        observe_windows(coverage, seen, since);
    }
}

/// The first opening since.
fn observe_next(coverage: &mut Coverage, seen: &Seen) {
    let (date, _) = seen.after.last_opened().expect("a day is open");
    let Some((last, _)) = seen.before.last_opened() else {
        return coverage.count("open: first opening, after a conversion");
    };
    coverage.count_if(
        date.is_in_month_of(last),
        "open: left smaller than before a conversion",
    );
    let mut windows = seen.before.windows.iter();
    let is_full = windows.any(|window| window.len() == LARGEST_WINDOW);
    match (date.season() - last.season(), is_full) {
        (1, true) => coverage.count("season: next at once after a conversion, a window full"),
        (1, false) => coverage.count("season: next at once after a conversion, none full"),
        (2.., true) => coverage.count("season: skipped at once after a conversion, a window full"),
        _ => {}
    }
}

fn observe_windows(coverage: &mut Coverage, seen: &Seen, since: &Since) {
    let renewed = seen.answer.split(' ').skip(1).enumerate();
    for (product, _) in renewed.filter(|(_, word)| *word == "1") {
        match since.collected[product] {
            0 => coverage.count(window_key(product, WINDOWS[0])),
            1..LARGEST_WINDOW => observe_either_side(coverage, product),
            _ => {}
        }
    }
}

fn observe_either_side(coverage: &mut Coverage, product: usize) {
    coverage.count(window_key(product, WINDOWS[1]));
    let group = group_of(product);
    if coverage.turns[group] == Turn::BroughtBack {
        coverage.count(back_key(group));
    }
}

/// The first sheets since are judged by the last ones before.
fn observe_sheet(coverage: &mut Coverage, seen: &Seen) {
    if let Some(refusal @ (9 | 10)) = seen.refusal() {
        coverage.count(format!(
            "sheet: refused {refusal} by a sheet of before a conversion"
        ));
    }
}

fn observe_check(coverage: &mut Coverage, seen: &Seen) {
    if seen.refusal().is_none() {
        let kind = seen.kind();
        coverage.count(format!("check: {kind} by a sheet of before a conversion"));
    }
}

fn observe_end(coverage: &mut Coverage, seen: &Seen, since: &Since) {
    for event in event::of(seen) {
        observe_event(coverage, &event);
        let is_marked = seen.after.standings[event.group].marked;
        coverage.count_if(is_marked, &event_key(event.group, EVENTS[2]));
        coverage.count_if(
            since.ends == 0 && event.name() == "triggered",
            "end: triggered by a change from before a conversion",
        );
    }
}

/// What the edition of 2014 would have made of the same moves.
fn observe_event(coverage: &mut Coverage, event: &Event) {
    let under_2014 = |level| edition_2014::event(level, &event.moves);
    let (happened, what) = match event.name() {
        "triggered" => (under_2014(Level::Initial) == end::Event::Quiet, EVENTS[0]),
        "held" => (
            under_2014(Level::Expanded) == end::Event::Reverted,
            EVENTS[1],
        ),
        name => (name == "raised", EVENTS[3]),
    };
    coverage.count_if(happened, &event_key(event.group, what));
}
