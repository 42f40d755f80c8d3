//! What a group's moves make of it, under the edition of 2023.

use super::end::{Event, Outcome};
use super::moves::{leading, Move};
use super::{Level, Standing};

pub fn outcome(standing: Standing, moves: &[Move]) -> Outcome {
    match standing.level {
        Level::Initial => at_initial(moves),
        Level::Expanded => at_expanded(moves, standing.marked),
    }
}

fn at_initial(moves: &[Move]) -> Outcome {
    match leading(moves, Move::can_trigger) {
        Some(contract) => (Event::Triggered(contract), false),
        None => (Event::Quiet, false),
    }
}

fn at_expanded(moves: &[Move], was_marked: bool) -> Outcome {
    let by_expanded = leading(moves, Move::is_by_expanded);
    if let (Some(contract), true) = (by_expanded, was_marked) {
        return (Event::Raised(contract), false);
    }
    match leading(moves, |one| one.size >= one.limits.initial) {
        Some(contract) => (Event::Held(contract), by_expanded.is_some()),
        None => (Event::Reverted, false),
    }
}
