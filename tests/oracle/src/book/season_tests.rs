//! Changes of season by hand: new limits, the groups that they bring back, and those that keep level and mark.

use super::by_hand::{
    contract, Trial, CHICAGO_WHEAT, CORN, EXPANDED, KC_WHEAT, LIMITS, MARKED, MEAL, OATS, OIL,
    SOYBEANS,
};
use super::end::Event;
use super::groups::{group_of, COMPLEX, WHEATS};
use super::opening::NewLimits;
use super::{Book, Limits, Standing, GROUPS, GROUP_COUNT};
use crate::refusal::Refusal;

const INITIAL: Standing = Standing::INITIAL;

const NONE: NewLimits = [false; 8];

/// The last days of the season before June 2024, and of the one before that.
const LAST_SEASON: [u32; 3] = [2024, 4, 30];
const SEASON_BEFORE: [u32; 3] = [2023, 10, 31];

/// I after 45 settlements of 6,000: 7 % of that is 420, and these are the nearest multiples of the steps.
const SEASON_LIMITS: [u32; 8] = [440, 440, 400, 400, 440, 440, 440, 420];

/// An ended day, every group expanded and marked, and windows of so many settlements of 6,000.
fn marked_with_windows(lengths: [usize; 8]) -> Trial {
    let mut trial = Trial::new(LIMITS);
    trial.book.standings = [MARKED; GROUP_COUNT];
    trial.book.windows = lengths.map(|length| vec![6_000; length]);
    assert!(trial.book.is_sound());
    trial
}

/// One product's window full, the others one short of it.
fn full_for(product: usize) -> Trial {
    let mut lengths = [44; 8];
    lengths[product] = 45;
    marked_with_windows(lengths)
}

fn alone(product: usize) -> NewLimits {
    let mut renewed = NONE;
    renewed[product] = true;
    renewed
}

fn initials(book: &Book) -> [u32; 8] {
    book.limits.map(|limits| limits.initial)
}

/// Every group but one is marked as it was.
fn assert_others_marked(book: &Book, group: usize) {
    for other in (0..GROUP_COUNT).filter(|&other| other != group) {
        assert_eq!(book.standings[other], MARKED, "{other} beside {group}");
    }
}

#[test]
fn a_full_window_gives_season_limits_in_the_next_season() {
    let mut trial = marked_with_windows([45; 8]);
    assert_eq!(trial.open_after(LAST_SEASON), [true; 8]);
    assert_eq!(initials(&trial.book), SEASON_LIMITS);
    let corn = Limits {
        initial: 440,
        expanded: 680,
    };
    assert_eq!(trial.book.limits[CORN], corn);
    assert_eq!(trial.book.standings, [INITIAL; GROUP_COUNT]);
    assert!(trial.book.windows.iter().all(Vec::is_empty));
    assert!(trial.book.is_sound());
}

#[test]
fn the_next_season_is_the_next_at_its_end_too() {
    let mut book = full_for(CORN).book;
    book.date = Some(LAST_SEASON);
    book.left = 0;
    assert_eq!(book.open(2024, 10, 31, 0), Ok(alone(CORN)));
    assert_eq!(book.standings[0], INITIAL);
}

#[test]
fn each_product_brings_its_whole_group_back_and_no_other() {
    for product in 0..8 {
        let mut trial = full_for(product);
        assert_eq!(trial.open_after(LAST_SEASON), alone(product));
        let mut limits = LIMITS;
        limits[product] = SEASON_LIMITS[product];
        assert_eq!(initials(&trial.book), limits);
        let group = group_of(product);
        assert_eq!(trial.book.standings[group], INITIAL, "{product}");
        assert_others_marked(&trial.book, group);
    }
}

#[test]
fn any_products_of_the_complex_and_either_wheat_bring_their_group_back() {
    for group in [COMPLEX, WHEATS] {
        for choice in 0..1 << GROUPS[group].len() {
            assert_brought_back_by(group, choice);
        }
    }
}

/// Those of a group's products have a full window whose bits are in a choice.
fn assert_brought_back_by(group: usize, choice: usize) {
    let mut lengths = [0; 8];
    for (place, &product) in GROUPS[group].iter().enumerate() {
        lengths[product] = if choice >> place & 1 == 1 { 45 } else { 44 };
    }
    let mut trial = marked_with_windows(lengths);
    let renewed = trial.open_after(LAST_SEASON);
    assert_eq!(renewed, lengths.map(|length| length == 45));
    let standing = if choice == 0 { MARKED } else { INITIAL };
    assert_eq!(trial.book.standings[group], standing, "{lengths:?}");
    assert_others_marked(&trial.book, group);
}

/// Oil alone has a full window; at 5,000 that is (e), 350 and 550.
fn complex_by_oil() -> Trial {
    let mut trial = full_for(OIL);
    trial.book.windows[OIL] = vec![5_000; 45];
    assert_eq!(trial.open_after(LAST_SEASON), alone(OIL));
    trial
}

/// A product of a group that was brought back, with its I and E.
type BroughtBack = (usize, u32, u32);

const COMPLEX_BY_OIL: [BroughtBack; 3] = [(SOYBEANS, 400, 600), (OIL, 350, 550), (MEAL, 200, 300)];

/// Held to I, and not to E.
fn assert_brought_back(trial: &Trial, group: &[BroughtBack]) {
    for &(product, initial, expanded) in group {
        trial.assert_limit(product, initial);
        for july in [6_000 + expanded, 6_000 - expanded] {
            let filed = trial.filed(product, july);
            assert_eq!(filed, Err(Refusal::Beyond), "{product}");
        }
    }
}

#[test]
fn oil_alone_brings_the_complex_back_each_by_its_own_amounts() {
    let trial = complex_by_oil();
    assert_eq!(initials(&trial.book)[1..=3], [400, 350, 200]);
    assert_brought_back(&trial, &COMPLEX_BY_OIL);
}

#[test]
fn a_wheat_alone_brings_both_back_each_by_its_own_amounts() {
    for (renewed, kept) in [(CHICAGO_WHEAT, KC_WHEAT), (KC_WHEAT, CHICAGO_WHEAT)] {
        let mut trial = full_for(renewed);
        assert_eq!(trial.open_after(LAST_SEASON), alone(renewed));
        assert_eq!(trial.book.standings[WHEATS], INITIAL);
        assert_brought_back(&trial, &[(renewed, 440, 680), (kept, 240, 360)]);
    }
}

#[test]
fn equal_limits_are_new_and_bring_back() {
    let mut trial = full_for(CORN);
    trial.book.limits[CORN] = Limits::from_initial(CORN, 440);
    let before = trial.book.limits;
    assert_eq!(trial.open_after(LAST_SEASON), alone(CORN));
    assert_eq!(trial.book.limits, before);
    assert_eq!(trial.book.standings[0], INITIAL);
}

#[test]
fn equal_limits_of_one_product_bring_the_complex_back() {
    let mut trial = full_for(MEAL);
    trial.book.limits[MEAL] = Limits::from_initial(MEAL, 400);
    let before = trial.book.limits;
    assert_eq!(trial.open_after(LAST_SEASON), alone(MEAL));
    assert_eq!(trial.book.limits, before);
    assert_eq!(trial.book.standings[COMPLEX], INITIAL);
}

#[test]
fn corn_and_oats_leave_the_wheats_where_they_stand() {
    for standing in [EXPANDED, MARKED] {
        let mut trial = full_for(CORN);
        trial.book.windows[OATS] = vec![6_000; 45];
        trial.book.standings[WHEATS] = standing;
        trial.open_after(LAST_SEASON);
        assert_eq!(trial.book.standings[group_of(CORN)], INITIAL);
        assert_eq!(trial.book.standings[group_of(OATS)], INITIAL);
        assert_eq!(trial.book.standings[WHEATS], standing);
        assert_eq!(trial.book.limit_today(CHICAGO_WHEAT), 360);
        assert_eq!(trial.book.limit_today(KC_WHEAT), 360);
    }
}

#[test]
fn the_wheats_leave_corn_and_oats_where_they_stand() {
    for product in GROUPS[WHEATS] {
        let mut trial = full_for(*product);
        trial.book.standings[group_of(OATS)] = EXPANDED;
        assert_eq!(trial.open_after(LAST_SEASON), alone(*product));
        assert_eq!(trial.book.standings[WHEATS], INITIAL);
        assert_eq!(trial.book.standings[group_of(CORN)], MARKED);
        assert_eq!(trial.book.standings[group_of(OATS)], EXPANDED);
    }
}

#[test]
fn a_group_at_the_initial_level_gets_new_limits_there() {
    let mut trial = full_for(CORN);
    trial.book.standings[0] = INITIAL;
    assert_eq!(trial.open_after(LAST_SEASON), alone(CORN));
    assert_eq!(trial.book.standings[0], INITIAL);
    assert_eq!(trial.book.limit_today(CORN), 440);
}

/// Nothing but the windows changes, and they as given.
fn assert_kept(trial: &Trial, before: &Book, windows: usize) {
    assert_eq!(trial.book.standings, before.standings);
    assert_eq!(trial.book.limits, before.limits);
    let lengths = trial.book.windows.each_ref().map(Vec::len);
    assert_eq!(lengths, [windows; 8]);
}

#[test]
fn windows_of_44_or_fewer_leave_levels_and_marks_and_are_emptied() {
    for length in [44, 1, 0] {
        let mut trial = marked_with_windows([length; 8]);
        trial.book.standings[0] = EXPANDED;
        let before = trial.book.clone();
        assert_eq!(trial.open_after(LAST_SEASON), NONE, "{length}");
        assert_kept(&trial, &before, 0);
    }
}

#[test]
fn a_skipped_season_leaves_levels_and_marks_and_empties_windows() {
    for last in [SEASON_BEFORE, [2023, 4, 30], [2000, 1, 1]] {
        let mut trial = marked_with_windows([45; 8]);
        trial.book.standings[0] = EXPANDED;
        let before = trial.book.clone();
        assert_eq!(trial.open_after(last), NONE, "{last:?}");
        assert_kept(&trial, &before, 0);
    }
}

#[test]
fn within_a_season_levels_marks_and_windows_stay() {
    let mut trial = marked_with_windows([45; 8]);
    trial.book.standings[0] = EXPANDED;
    let before = trial.book.clone();
    assert_eq!(trial.open_after([2024, 5, 1]), NONE);
    assert_kept(&trial, &before, 45);
}

#[test]
fn the_first_opening_resets_nothing_and_keeps_windows() {
    for month in 1..=12 {
        let mut trial = marked_with_windows([45; 8]);
        trial.book.standings[0] = EXPANDED;
        trial.book.last_ended = Default::default();
        trial.book.date = None;
        trial.book.left = 0;
        let before = trial.book.clone();
        assert_eq!(trial.book.open(2024, month, 1, 20), Ok(NONE), "{month}");
        assert_kept(&trial, &before, 45);
    }
}

/// Corn 200/320, expanded and marked by its days at I and at E.
fn marked_corn() -> Trial {
    let mut trial = Trial::new(LIMITS);
    trial.day(&[(CORN, 0, 200)]);
    trial.day(&[(CORN, 0, 320)]);
    assert_eq!(trial.book.standings[0], MARKED);
    trial
}

#[test]
fn a_dropped_mark_raises_on_the_second_day_at_e_alone() {
    let mut trial = marked_corn();
    trial.book.windows[CORN] = vec![6_000; 45];
    assert_eq!(trial.open_after(LAST_SEASON), alone(CORN));
    let lead = contract(CORN, 0);
    // The first day is at the initial level: 680 would be beyond its 440.
    let events = trial.rest_of_day(&[(CORN, 0, 440)]);
    assert_eq!(events[0], Event::Triggered(lead));
    assert_eq!(trial.book.standings[0], EXPANDED);
    assert_eq!(trial.day(&[(CORN, 0, 680)])[0], Event::Held(lead));
    assert_eq!(trial.book.standings[0], MARKED);
    assert_eq!(trial.day(&[(CORN, 0, -680)])[0], Event::Raised(lead));
    let raised = Limits {
        initial: 680,
        expanded: 1_040,
    };
    assert_eq!(trial.book.limits[CORN], raised);
    assert_eq!(trial.book.standings[0], INITIAL);
}

#[test]
fn a_group_brought_back_is_quiet_below_its_new_limit() {
    let mut trial = marked_corn();
    trial.book.windows[CORN] = vec![6_000; 45];
    assert_eq!(trial.open_after(LAST_SEASON), alone(CORN));
    // The E of before is no event any more.
    assert_eq!(trial.rest_of_day(&[(CORN, 0, 320)])[0], Event::Quiet);
    assert_eq!(trial.book.standings[0], INITIAL);
}

#[test]
fn a_kept_mark_raises_on_the_first_day_at_e() {
    for (length, last) in [
        (44, LAST_SEASON),
        (0, LAST_SEASON),
        (45, SEASON_BEFORE),
        (45, [2024, 5, 31]),
    ] {
        let mut trial = marked_corn();
        trial.book.windows[CORN] = vec![6_000; length];
        assert_eq!(trial.open_after(last), NONE, "{length} after {last:?}");
        let events = trial.rest_of_day(&[(CORN, 5, -320)]);
        assert_eq!(events[0], Event::Raised(contract(CORN, 5)));
        assert_eq!(trial.book.limits[CORN].initial, 320);
    }
}

#[test]
fn a_window_full_for_another_group_drops_no_mark() {
    let mut trial = marked_corn();
    trial.book.windows[CHICAGO_WHEAT] = vec![6_000; 45];
    assert_eq!(trial.open_after(LAST_SEASON), alone(CHICAGO_WHEAT));
    let events = trial.rest_of_day(&[(CORN, 0, 320)]);
    assert_eq!(events[0], Event::Raised(contract(CORN, 0)));
}
