//! What a group's moves make of it, under the edition of 2014: nothing is raised or marked.

use super::end::Event;
use super::moves::{leading, Move};
use super::Level;

/// So many contracts of a product trigger, whatever their months.
const ENOUGH: usize = 2;

pub fn event(level: Level, moves: &[Move]) -> Event {
    match level {
        Level::Initial => at_initial(moves),
        Level::Expanded => at_expanded(moves),
    }
}

fn at_initial(moves: &[Move]) -> Event {
    match leading(moves, |one| triggers(moves, one)) {
        Some(contract) => Event::Triggered(contract),
        None => Event::Quiet,
    }
}

/// Whether a contract is among those by which its product triggers.
pub fn triggers(moves: &[Move], one: &Move) -> bool {
    one.can_trigger() && is_triggered(moves, one.contract.product)
}

/// By two of its contracts, or by one of its last crop-year month.
fn is_triggered(moves: &[Move], product: usize) -> bool {
    let is_own = |one: &&Move| one.contract.product == product && one.can_trigger();
    let own = || moves.iter().filter(is_own);
    own().count() >= ENOUGH || own().any(Move::ends_crop_year)
}

fn at_expanded(moves: &[Move]) -> Event {
    match leading(moves, Move::is_by_expanded) {
        Some(contract) => Event::Held(contract),
        None => Event::Reverted,
    }
}
