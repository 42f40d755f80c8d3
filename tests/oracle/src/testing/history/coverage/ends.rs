//! What ends reached: events with their leads and edges, and windows.

use super::event::{self, Event};
use super::seasons::Turn;
use super::{coupled, ends_2014, Coverage, Seen};
use crate::book::edition::Edition;
use crate::book::moves::Move;
use crate::book::window::{collected_contract, LARGEST_WINDOW};
use crate::book::{Book, Level, GROUPS, GROUP_COUNT, PRODUCT_COUNT};
use crate::dates::{is_spot, Date};
use crate::products::PRODUCTS;

const EVENTS: [&str; 6] = [
    "quiet",
    "triggered",
    "held",
    "held and marked",
    "reverted",
    "raised",
];

const EDGES: [&str; 8] = [
    "quiet with a move one tick below I",
    "quiet with a move of I past the first N",
    "quiet with a move of I that a new contract pushed past the first N",
    "triggered by the last of the first N",
    "held by exactly I",
    "held by one tick below E",
    "held past the first N alone",
    "reverted with a move one tick below I",
];

const WANTED: [&str; 16] = [
    "end: refused 2",
    "end: 2 over 12",
    "end: refused 12, none in",
    "end: refused 12, one outstanding",
    "end: first day",
    "end: a spot contract moved by I or more on a quiet day",
    "end: a month of 2^31 or more leads",
    "end: raised by a mark kept into the next season, no new limits",
    "end: raised by a mark kept over a skipped season, a window full",
    "end: held and marked by the first move of E after a dropped mark",
    "end: quiet on a day that brought the group back",
    "end: triggered on a day that brought the group back",
    "window: collects on 15 April",
    "window: collects on 15 October",
    "window: rests",
    "window: begins after its contract was missing",
];

/// Soybeans and Rough Rice, whose collected contract can leave the sheet within the season.
const CAN_LEAVE: [usize; 2] = [1, 7];

pub fn wanted() -> Vec<String> {
    let groups = || 0..GROUP_COUNT;
    let events = groups().flat_map(|group| EVENTS.map(|event| event_key(group, event)));
    let edges = groups().flat_map(|group| EDGES.map(|edge| event_key(group, edge)));
    let windows = (0..PRODUCT_COUNT).flat_map(|product| {
        ["collects", "pushes out the oldest", "misses its contract"]
            .map(|what| window_key(product, what))
    });
    let emptied = CAN_LEAVE.map(|product| window_key(product, "emptied by a missing contract"));
    let windows = windows.chain(emptied);
    let fixed = WANTED.iter().map(|what| what.to_string());
    fixed.chain(events).chain(edges).chain(windows).collect()
}

/// Of a group under the edition of 2023.
pub fn event_key(group: usize, what: &str) -> String {
    format!("end: group {group} {what}")
}

fn window_key(product: usize, what: &str) -> String {
    format!("window: product {product} {what}")
}

pub fn observe(coverage: &mut Coverage, seen: &Seen) {
    if let Some(refusal) = seen.refusal() {
        return observe_refused(coverage, seen.before, refusal);
    }
    let (date, left) = seen.after.last_opened().expect("the day ended");
    let is_first = seen.before.last_ended[0].is_none();
    coverage.count_if(is_first, "end: first day");
    let events = event::of(seen);
    for event in &events {
        match event.edition {
            Edition::Of2014 => ends_2014::observe(coverage, seen.before, event),
            Edition::Of2023 => observe_event(coverage, seen, event),
        }
        observe_turn(coverage, seen, event);
        observe_spot(coverage, seen.before, event, (date, left));
        coupled::observe(coverage, seen, event);
    }
    coupled::observe_day(coverage, &events);
    for product in 0..PRODUCT_COUNT {
        observe_window(coverage, seen.before, product, date);
    }
}

fn observe_refused(coverage: &mut Coverage, book: &Book, refusal: u32) {
    let outstanding = book
        .sheets_in
        .iter()
        .filter(|sheet| sheet.is_none())
        .count();
    if refusal == 2 {
        coverage.count("end: refused 2");
        coverage.count_if(outstanding > 0, "end: 2 over 12");
        return;
    }
    coverage.count_if(outstanding == PRODUCT_COUNT, "end: refused 12, none in");
    coverage.count_if(outstanding == 1, "end: refused 12, one outstanding");
}

fn observe_event(coverage: &mut Coverage, seen: &Seen, event: &Event) {
    let what = match (event.name(), seen.after.standings[event.group].marked) {
        ("held", true) => "held and marked",
        (name, _) => name,
    };
    coverage.count(event_key(event.group, what));
    let is_far = event.lead().is_some_and(|lead| lead.month >= 1 << 31);
    coverage.count_if(is_far, "end: a month of 2^31 or more leads");
    observe_edges(coverage, event);
}

/// What the first days after a change of season made of a group.
fn observe_turn(coverage: &mut Coverage, seen: &Seen, event: &Event) {
    let (group, moves) = (event.group, &event.moves);
    match (coverage.turns[group], event.name()) {
        (Turn::KeptNext, "raised") => {
            coverage.count("end: raised by a mark kept into the next season, no new limits");
        }
        (Turn::KeptSkipped, "raised") => {
            coverage.count("end: raised by a mark kept over a skipped season, a window full");
        }
        (Turn::BroughtBack, name @ ("quiet" | "triggered")) => {
            coverage.count(format!("end: {name} on a day that brought the group back"));
        }
        _ => {}
    }
    let is_by_e = moves.iter().any(Move::is_by_expanded);
    if !is_by_e || !coverage.dropped_marks[group] {
        return;
    }
    coverage.dropped_marks[group] = false;
    coverage.count_if(
        event.name() == "held" && seen.after.standings[group].marked,
        "end: held and marked by the first move of E after a dropped mark",
    );
}

fn observe_edges(coverage: &mut Coverage, event: &Event) {
    let (group, moves) = (event.group, &event.moves);
    let tick = |one: &Move| PRODUCTS[one.contract.product].standard_tick;
    let below = moves
        .iter()
        .any(|one| one.size + tick(one) == one.limits.initial);
    let mut edge = |happened: bool, place: usize| {
        coverage.count_if(happened, &event_key(group, EDGES[place]));
    };
    let lead = event.lead();
    let lead = moves.iter().find(|one| Some(one.contract) == lead);
    match (event.name(), lead) {
        ("quiet", _) => {
            let mut past = moves
                .iter()
                .filter(|one| !one.is_first() && one.is_by_initial());
            edge(below, 0);
            edge(past.clone().next().is_some(), 1);
            edge(
                past.any(|one| changed_before(moves, one) < PRODUCTS[one.contract.product].first),
                2,
            );
        }
        ("triggered", Some(lead)) => {
            edge(lead.place + 1 == PRODUCTS[lead.contract.product].first, 3);
        }
        ("held", Some(lead)) => {
            let holds = |one: &&Move| one.size >= one.limits.initial;
            edge(lead.is_by_initial(), 4);
            edge(lead.size + tick(lead) == lead.limits.expanded, 5);
            edge(!moves.iter().filter(holds).any(Move::is_first), 6);
        }
        ("reverted", _) => edge(below, 7),
        _ => {}
    }
}

/// How many contracts of the product with a change are nearer.
pub fn changed_before(moves: &[Move], one: &Move) -> usize {
    let nearer = |other: &&Move| {
        other.contract.product == one.contract.product && other.contract.month < one.contract.month
    };
    moves.iter().filter(nearer).count()
}

fn observe_spot(coverage: &mut Coverage, book: &Book, event: &Event, (date, left): (Date, u32)) {
    if event.name() != "quiet" || book.standings[event.group].level != Level::Initial {
        return;
    }
    for &product in GROUPS[event.group] {
        let sheet = book.sheets_in[product].iter().flatten();
        let mut spot = sheet.filter(|entry| is_spot(entry.month, date, left));
        let has_moved = spot.any(|entry| {
            let last = book.last_settlement(product, entry.month);
            last.is_some_and(|last| entry.settlement.abs_diff(last) >= book.limits[product].initial)
        });
        coverage.count_if(
            has_moved,
            "end: a spot contract moved by I or more on a quiet day",
        );
    }
}

fn observe_missing(coverage: &mut Coverage, product: usize, length: usize) {
    coverage.count(window_key(product, "misses its contract"));
    if length == 0 {
        return;
    }
    // Row 9 keeps the others listed; November can be spot in October, and leave.
    assert!(CAN_LEAVE.contains(&product), "a collected contract left");
    coverage.count(window_key(product, "emptied by a missing contract"));
}

fn observe_window(coverage: &mut Coverage, before: &Book, product: usize, date: Date) {
    let Some(month) = collected_contract(product, date) else {
        return coverage.count("window: rests");
    };
    let length = before.windows[product].len();
    let sheet = before.sheets_in[product].as_ref().expect("the day ended");
    if !sheet.iter().any(|entry| entry.month == month) {
        return observe_missing(coverage, product, length);
    }
    coverage.count(window_key(
        product,
        match length {
            LARGEST_WINDOW => "pushes out the oldest",
            _ => "collects",
        },
    ));
    coverage.count_if(date.word() % 10_000 == 415, "window: collects on 15 April");
    coverage.count_if(
        date.word() % 10_000 == 1015,
        "window: collects on 15 October",
    );
    let was_missing =
        before.last_ended[product].is_some() && before.last_settlement(product, month).is_none();
    coverage.count_if(
        length == 0 && was_missing,
        "window: begins after its contract was missing",
    );
}
