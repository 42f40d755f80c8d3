//! What groups of several products reached: which of them moved the others, by its own amounts, and which led.

use super::event::{prefix, Event, Kind};
use super::{Coverage, Seen};
use crate::amounts::LARGEST_LIMIT;
use crate::book::edition::Edition;
use crate::book::groups::{group_of, COMPLEX, COUPLED, WHEATS};
use crate::book::moves::Contract;
use crate::book::{Book, Level, GROUPS, GROUP_COUNT, PRODUCT_COUNT};

/// The events that have a leading contract.
const LED: [Kind<'_>; 5] = [
    (Edition::Of2014, "triggered"),
    (Edition::Of2014, "held"),
    (Edition::Of2023, "triggered"),
    (Edition::Of2023, "held"),
    (Edition::Of2023, "raised"),
];

/// What contracts of several products can make of such an event.
const TOGETHER: [&str; 3] = [
    "by several products",
    "a nearer month leads over a lower product",
    "the lowest product leads in a month",
];

/// What a raise can reach.
const LARGEST: [&str; 2] = ["raised to I = E = 2000000", "raised to I below E = 2000000"];

/// What the last ended day saw of each product.
#[derive(Clone, Copy, Default)]
pub struct LastEnd {
    /// A contract moved by I or more.
    moved: [bool; PRODUCT_COUNT],
    /// A contract moved by exactly E.
    pub at_e: [bool; PRODUCT_COUNT],
}

pub fn wanted() -> Vec<String> {
    let events = COUPLED.iter().flat_map(|&group| {
        LED.into_iter()
            .flat_map(move |event| of_event(group, event))
    });
    let raises = COUPLED.iter().flat_map(|&group| of_raise(group));
    let own = coupled_products().flat_map(|product| [quiet_key(product), unmarked_key(product)]);
    let others = (0..GROUP_COUNT).filter(|&group| group != WHEATS);
    let beside = others.flat_map(|group| [beside_key(group, WHEATS), beside_key(WHEATS, group)]);
    events.chain(raises).chain(own).chain(beside).collect()
}

/// Every product that shares its group with another.
pub fn coupled_products() -> impl Iterator<Item = usize> {
    COUPLED.iter().flat_map(|&group| GROUPS[group]).copied()
}

fn of_event(group: usize, event: Kind) -> Vec<String> {
    let of_product = |&product: &usize| [alone_key(event, product), lead_key(event, product)];
    let products = GROUPS[group].iter().flat_map(of_product);
    let together = TOGETHER.map(|what| event_key(group, event, what));
    products.chain(together).collect()
}

fn of_raise(group: usize) -> Vec<String> {
    let pairs = GROUPS[group].iter().flat_map(|&first| {
        let others = GROUPS[group].iter().filter(move |&&other| other != first);
        others.map(move |&second| in_turn_key(first, second))
    });
    let largest = LARGEST.map(|what| format!("end: {} {what}", name(group)));
    pairs.chain(largest).collect()
}

/// Of a group of several products.
pub fn name(group: usize) -> &'static str {
    match group {
        COMPLEX => "Complex",
        WHEATS => "wheats",
        _ => panic!("group {group} is one product"),
    }
}

fn event_key(group: usize, (edition, event): Kind, what: &str) -> String {
    format!("{}: {} {event}, {what}", prefix(edition), name(group))
}

fn alone_key(event: Kind, product: usize) -> String {
    event_key(
        group_of(product),
        event,
        &format!("by product {product} alone"),
    )
}

fn lead_key(event: Kind, product: usize) -> String {
    event_key(
        group_of(product),
        event,
        &format!("led by product {product}"),
    )
}

fn in_turn_key(first: usize, second: usize) -> String {
    let group = name(group_of(first));
    format!("end: {group} marked by product {first} alone, raised by product {second} alone")
}

fn quiet_key(product: usize) -> String {
    let group = name(group_of(product));
    format!("end: {group} quiet with a move of product {product} by another's I")
}

fn unmarked_key(product: usize) -> String {
    let group = name(group_of(product));
    format!("end: {group} held without a mark with a move of product {product} by another's E")
}

fn beside_key(group: usize, quiet: usize) -> String {
    format!("end: group {group} triggered beside group {quiet}, which stays quiet")
}

/// Takes note of a group's event, if it is of several products.
pub fn observe(coverage: &mut Coverage, seen: &Seen, event: &Event) {
    if !COUPLED.contains(&event.group) {
        return;
    }
    observe_met(coverage, event);
    if event.edition == Edition::Of2023 {
        observe_raise(coverage, seen, event);
        observe_own(coverage, seen, event);
    }
}

fn observe_met(coverage: &mut Coverage, event: &Event) {
    let Some(lead) = event.lead() else {
        return;
    };
    coverage.count(lead_key(event.kind(), lead.product));
    let mut others = event.met();
    others.retain(|one| one.product != lead.product);
    if others.is_empty() {
        return coverage.count(alone_key(event.kind(), lead.product));
    }
    let is_later_and_lower = |one: &Contract| one.product < lead.product && one.month > lead.month;
    let is_tie = |one: &Contract| one.month == lead.month;
    let facts = [
        true,
        others.iter().any(is_later_and_lower),
        others.iter().any(is_tie),
    ];
    for (happened, what) in facts.into_iter().zip(TOGETHER) {
        coverage.count_if(happened, &event_key(event.group, event.kind(), what));
    }
}

fn observe_raise(coverage: &mut Coverage, seen: &Seen, event: &Event) {
    if event.name() != "raised" {
        return;
    }
    let marking = only(GROUPS[event.group], |product| {
        coverage.last_end.at_e[product]
    });
    let met = event.met();
    let raising = only(GROUPS[event.group], |product| {
        met.iter().any(|one| one.product == product)
    });
    if let (Some(first), Some(second)) = (marking, raising) {
        if first != second {
            coverage.count(in_turn_key(first, second));
        }
    }
    for &product in GROUPS[event.group] {
        let limits = seen.after.limits[product];
        if limits.expanded == LARGEST_LIMIT {
            let what = LARGEST[usize::from(limits.initial < LARGEST_LIMIT)];
            coverage.count(format!("end: {} {what}", name(event.group)));
        }
    }
}

/// The one product of which something is true; none where it is true of several.
fn only(products: &[usize], is_true: impl Fn(usize) -> bool) -> Option<usize> {
    let mut found = products.iter().copied().filter(|&one| is_true(one));
    found.next().filter(|_| found.next().is_none())
}

/// Moves by an amount of another product of the group that is none of one's own.
fn observe_own(coverage: &mut Coverage, seen: &Seen, event: &Event) {
    let limits = seen.before.limits;
    let others = |product: usize| {
        let products = GROUPS[event.group].iter().copied();
        products.filter(move |&other| other != product)
    };
    let is_marked = seen.after.standings[event.group].marked;
    for one in &event.moves {
        let product = one.contract.product;
        let is_others_i = others(product).any(|other| one.size == limits[other].initial);
        let is_others_e = others(product).any(|other| one.size == limits[other].expanded);
        let is_enough = one.size >= one.limits.initial;
        match event.name() {
            "quiet" if is_others_i && one.is_first() => coverage.count(quiet_key(product)),
            "held" if is_others_e && is_enough && !is_marked => {
                coverage.count(unmarked_key(product));
            }
            _ => {}
        }
    }
}

/// Takes note of the whole day, of which the next calls are judged.
pub fn observe_day(coverage: &mut Coverage, events: &[Event]) {
    for triggered in events.iter().filter(|event| event.name() == "triggered") {
        let quiet = events.iter().filter(|event| event.name() == "quiet");
        for other in quiet.filter(|other| [other.group, triggered.group].contains(&WHEATS)) {
            coverage.count(beside_key(triggered.group, other.group));
        }
    }
    let moves = events.iter().flat_map(|event| &event.moves);
    coverage.last_end = LastEnd::default();
    for one in moves {
        let product = one.contract.product;
        coverage.last_end.moved[product] |= one.size >= one.limits.initial;
        coverage.last_end.at_e[product] |= one.is_by_expanded();
    }
}

/// Whether a product is at the expanded level by the moves of others alone.
pub fn is_widened_by_others(coverage: &Coverage, book: &Book, product: usize) -> bool {
    let group = group_of(product);
    COUPLED.contains(&group)
        && book.standings[group].level == Level::Expanded
        && !coverage.last_end.moved[product]
}
