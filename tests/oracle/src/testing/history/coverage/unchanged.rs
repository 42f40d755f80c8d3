//! What days reached at once after a conversion that left the book unchanged: levels and marks pass through it.

use super::event;
use super::seasons::Turn;
use super::{Coverage, Seen};
use crate::book::groups::group_of;
use crate::book::{Level, GROUP_COUNT};
use crate::history::call::Call;

const WANTED: [&str; 6] = [
    "check: within E by a level of before a conversion",
    "check: below E by a level of before a conversion",
    "check: above E by a level of before a conversion",
    "season: group brought back, expanded before a conversion",
    "season: group brought back, marked before a conversion",
    "season: group kept, marked before a conversion",
];

/// Of a group that was expanded before a conversion.
const EVENTS: [&str; 3] = ["held", "reverted", "raised"];

pub fn wanted() -> Vec<String> {
    let fixed = WANTED.iter().map(|what| what.to_string());
    let events = (0..GROUP_COUNT).flat_map(|group| EVENTS.map(|event| event_key(group, event)));
    fixed.chain(events).collect()
}

fn event_key(group: usize, event: &str) -> String {
    format!("end: group {group} {event}, expanded before a conversion")
}

/// Takes note of a call between a conversion and the end of the day after it.
pub fn observe(coverage: &mut Coverage, call: &Call, seen: &Seen) {
    if !coverage.past.is_converted || seen.refusal().is_some() {
        return;
    }
    match call {
        Call::Open(_) => observe_opened(coverage, seen),
        Call::Check([product, ..]) => observe_checked(coverage, *product as usize, seen),
        Call::End => observe_ended(coverage, seen),
        _ => {}
    }
}

fn observe_opened(coverage: &mut Coverage, seen: &Seen) {
    for group in 0..GROUP_COUNT {
        let is_marked = seen.before.standings[group].marked;
        match (coverage.turns[group], is_marked) {
            (Turn::BroughtBack, false) => {
                coverage.count("season: group brought back, expanded before a conversion");
            }
            (Turn::BroughtBack, true) => {
                coverage.count("season: group brought back, marked before a conversion");
            }
            (Turn::KeptNext, true) => {
                coverage.count("season: group kept, marked before a conversion");
            }
            _ => {}
        }
    }
}

fn observe_checked(coverage: &mut Coverage, product: usize, seen: &Seen) {
    let kind = seen.kind();
    if kind != "free" && seen.before.standings[group_of(product)].level == Level::Expanded {
        coverage.count(format!("check: {kind} E by a level of before a conversion"));
    }
}

fn observe_ended(coverage: &mut Coverage, seen: &Seen) {
    for event in event::of(seen) {
        if EVENTS.contains(&event.name()) {
            coverage.count(event_key(event.group, event.name()));
        }
    }
}
