//! The two wheats together, by hand: one level and one mark, each wheat by its own amounts.

use super::by_hand::{
    contract, Change, Trial, CHICAGO_WHEAT, CORN, EXPANDED, KC_WHEAT, LIMITS, MARKED, OATS,
};
use super::end::Event;
use super::groups::{group_of, WHEATS};
use super::moves::Contract;
use super::{Limits, Standing, GROUP_COUNT};

const INITIAL: Standing = Standing::INITIAL;

/// I and E of Chicago Wheat and KC Wheat, which differ in both.
const LIMITS_OF_BOTH: [[u32; 2]; 2] = [[240, 360], [280, 440]];

/// What a raise makes of them.
const RAISED: [[u32; 2]; 2] = [[360, 560], [440, 680]];

fn wheats() -> Trial {
    let mut limits = LIMITS;
    limits[KC_WHEAT] = 280;
    let trial = Trial::new(limits);
    assert_eq!(limits_of(&trial), LIMITS_OF_BOTH);
    trial
}

fn limits_of(trial: &Trial) -> [[u32; 2]; 2] {
    let limits = [CHICAGO_WHEAT, KC_WHEAT].map(|product| trial.book.limits[product]);
    limits.map(|Limits { initial, expanded }| [initial, expanded])
}

/// Both wheats expanded, by one of them alone.
fn expanded_by(product: usize) -> Trial {
    let mut trial = wheats();
    let initial = trial.book.limits[product].initial;
    let event = wheat_day(&mut trial, &[(product, 0, i64::from(initial))]);
    assert_eq!(event, Event::Triggered(contract(product, 0)));
    assert_eq!(trial.book.standings[WHEATS], EXPANDED);
    trial
}

/// A day's event of the wheats; every other group is quiet.
fn wheat_day(trial: &mut Trial, changes: &[Change]) -> Event {
    let events = trial.day(changes);
    for group in (0..GROUP_COUNT).filter(|&group| group != WHEATS) {
        assert_eq!(events[group], Event::Quiet, "{group}");
        assert_eq!(trial.book.standings[group], INITIAL, "{group}");
    }
    events[WHEATS]
}

fn chicago(place: usize) -> Contract {
    contract(CHICAGO_WHEAT, place)
}

fn kc(place: usize) -> Contract {
    contract(KC_WHEAT, place)
}

/// The next day is held to these limits, orders and sheets alike.
fn assert_limits_today(trial: &mut Trial, [chicago, kc]: [u32; 2]) {
    trial.open();
    trial.assert_limit(CHICAGO_WHEAT, chicago);
    trial.assert_limit(KC_WHEAT, kc);
}

#[test]
fn either_alone_at_its_i_widens_both_each_to_its_own_e() {
    for product in [CHICAGO_WHEAT, KC_WHEAT] {
        assert_limits_today(&mut expanded_by(product), [360, 440]);
    }
    assert_limits_today(&mut wheats(), [240, 280]);
}

#[test]
fn the_other_wheats_amounts_are_none_of_its_own() {
    // Chicago's I is no I of KC Wheat.
    assert_eq!(
        wheat_day(&mut wheats(), &[(KC_WHEAT, 0, 240)]),
        Event::Quiet
    );
    // Expanded, Chicago's E holds by KC Wheat's I of 280 and marks nothing; Chicago's I does not hold.
    let mut trial = expanded_by(CHICAGO_WHEAT);
    let event = wheat_day(&mut trial, &[(KC_WHEAT, 0, 360)]);
    assert_eq!(event, Event::Held(kc(0)));
    assert_eq!(trial.book.standings[WHEATS], EXPANDED);
    assert_eq!(
        wheat_day(&mut trial, &[(KC_WHEAT, 0, 240)]),
        Event::Reverted
    );
    // KC Wheat's I of 280 holds Chicago by its 240, and is no E.
    let mut trial = expanded_by(KC_WHEAT);
    let event = wheat_day(&mut trial, &[(CHICAGO_WHEAT, 0, -280)]);
    assert_eq!(event, Event::Held(chicago(0)));
    assert_eq!(trial.book.standings[WHEATS], EXPANDED);
}

#[test]
fn two_days_at_e_in_different_wheats_raise_both() {
    let days = [
        ((CHICAGO_WHEAT, 7, 360), (KC_WHEAT, 2, -440)),
        ((KC_WHEAT, 7, -440), (CHICAGO_WHEAT, 2, 360)),
    ];
    for (marking, raising) in days {
        let mut trial = expanded_by(KC_WHEAT);
        let event = wheat_day(&mut trial, &[marking]);
        assert_eq!(event, Event::Held(contract(marking.0, 7)));
        assert_eq!(trial.book.standings[WHEATS], MARKED);
        let event = wheat_day(&mut trial, &[raising]);
        assert_eq!(event, Event::Raised(contract(raising.0, 2)));
        assert_eq!(limits_of(&trial), RAISED);
        assert_eq!(trial.book.standings[WHEATS], INITIAL);
        assert_limits_today(&mut trial, [360, 440]);
    }
}

#[test]
fn two_days_at_e_in_one_wheat_raise_both() {
    for (product, expanded) in [(CHICAGO_WHEAT, 360), (KC_WHEAT, 440)] {
        let mut trial = expanded_by(product);
        wheat_day(&mut trial, &[(product, 0, expanded)]);
        let event = wheat_day(&mut trial, &[(product, 0, expanded)]);
        assert_eq!(event, Event::Raised(contract(product, 0)));
        assert_eq!(limits_of(&trial), RAISED);
    }
}

#[test]
fn a_day_without_e_in_either_clears_the_mark() {
    let mut trial = expanded_by(CHICAGO_WHEAT);
    wheat_day(&mut trial, &[(KC_WHEAT, 0, 440)]);
    assert_eq!(trial.book.standings[WHEATS], MARKED);
    let event = wheat_day(&mut trial, &[(CHICAGO_WHEAT, 0, 358), (KC_WHEAT, 0, 438)]);
    assert_eq!(event, Event::Held(chicago(0)));
    assert_eq!(trial.book.standings[WHEATS], EXPANDED);
    let event = wheat_day(&mut trial, &[(CHICAGO_WHEAT, 0, 360)]);
    assert_eq!(event, Event::Held(chicago(0)));
    assert_eq!(limits_of(&trial), LIMITS_OF_BOTH);
}

#[test]
fn either_at_i_or_more_holds_both() {
    // Past the first five too.
    for change in [
        (CHICAGO_WHEAT, 9, 240),
        (CHICAGO_WHEAT, 0, -358),
        (KC_WHEAT, 9, -280),
        (KC_WHEAT, 0, 438),
    ] {
        let mut trial = expanded_by(CHICAGO_WHEAT);
        let event = wheat_day(&mut trial, &[change]);
        assert_eq!(event, Event::Held(contract(change.0, change.1)));
        assert_eq!(trial.book.standings[WHEATS], EXPANDED);
        assert_limits_today(&mut trial, [360, 440]);
    }
}

#[test]
fn both_fall_back_where_neither_moves_by_its_i() {
    let mut trial = expanded_by(KC_WHEAT);
    let event = wheat_day(&mut trial, &[(CHICAGO_WHEAT, 0, 238), (KC_WHEAT, 0, -278)]);
    assert_eq!(event, Event::Reverted);
    assert_eq!(trial.book.standings[WHEATS], INITIAL);
    assert_limits_today(&mut trial, [240, 280]);
}

#[test]
fn the_nearer_month_leads_whichever_wheat_has_it() {
    let mut trial = wheats();
    let event = wheat_day(&mut trial, &[(CHICAGO_WHEAT, 1, 240), (KC_WHEAT, 0, 280)]);
    assert_eq!(event, Event::Triggered(kc(0)));
    let event = wheat_day(&mut trial, &[(CHICAGO_WHEAT, 3, 360), (KC_WHEAT, 2, 280)]);
    assert_eq!(event, Event::Held(kc(2)));
    // A raise is led by a contract at E: neither July is.
    let nearer = [(CHICAGO_WHEAT, 0, 358), (KC_WHEAT, 0, 360)];
    let at_e = [(CHICAGO_WHEAT, 5, -360), (KC_WHEAT, 4, 440)];
    let event = wheat_day(&mut trial, &[nearer, at_e].concat());
    assert_eq!(event, Event::Raised(kc(4)));
}

#[test]
fn chicago_leads_in_the_same_month() {
    let both = |place, chicago, kc| [(CHICAGO_WHEAT, place, chicago), (KC_WHEAT, place, kc)];
    let mut trial = wheats();
    let event = wheat_day(&mut trial, &both(0, -240, 280));
    assert_eq!(event, Event::Triggered(chicago(0)));
    let event = wheat_day(&mut trial, &both(6, 240, 440));
    assert_eq!(event, Event::Held(chicago(6)));
    let event = wheat_day(&mut trial, &both(6, 360, -440));
    assert_eq!(event, Event::Raised(chicago(6)));
}

#[test]
fn kc_leads_in_the_same_month_where_chicago_does_not_meet_the_condition() {
    let event = wheat_day(
        &mut wheats(),
        &[(CHICAGO_WHEAT, 0, 238), (KC_WHEAT, 0, 280)],
    );
    assert_eq!(event, Event::Triggered(kc(0)));
}

#[test]
fn the_first_five_are_counted_for_each_wheat() {
    for (product, initial) in [(CHICAGO_WHEAT, 240), (KC_WHEAT, 280)] {
        let event = wheat_day(&mut wheats(), &[(product, 4, initial)]);
        assert_eq!(event, Event::Triggered(contract(product, 4)));
        let event = wheat_day(&mut wheats(), &[(product, 5, initial)]);
        assert_eq!(event, Event::Quiet);
    }
    let sixths = [(CHICAGO_WHEAT, 5, 240), (KC_WHEAT, 5, -280)];
    assert_eq!(wheat_day(&mut wheats(), &sixths), Event::Quiet);
}

#[test]
fn oats_and_corn_leave_the_wheats_alone() {
    for (product, initial) in [(OATS, 160), (CORN, 200)] {
        let mut trial = wheats();
        let events = trial.day(&[(product, 0, initial)]);
        assert_eq!(
            events[group_of(product)],
            Event::Triggered(contract(product, 0))
        );
        assert_eq!(events[WHEATS], Event::Quiet);
        assert_eq!(trial.book.standings[WHEATS], INITIAL);
        assert_limits_today(&mut trial, [240, 280]);
    }
}

#[test]
fn the_wheats_and_oats_go_their_own_ways_on_one_day() {
    let mut trial = expanded_by(KC_WHEAT);
    let events = trial.day(&[(OATS, 0, 160), (KC_WHEAT, 0, 440)]);
    assert_eq!(events[group_of(OATS)], Event::Triggered(contract(OATS, 0)));
    assert_eq!(events[WHEATS], Event::Held(kc(0)));
    // Oats at E marks Oats alone, and the wheats' mark raises the wheats alone.
    let events = trial.day(&[(OATS, 0, 240), (CHICAGO_WHEAT, 0, 360)]);
    assert_eq!(events[group_of(OATS)], Event::Held(contract(OATS, 0)));
    assert_eq!(events[WHEATS], Event::Raised(chicago(0)));
    assert_eq!(trial.book.standings[group_of(OATS)], MARKED);
    assert_eq!(trial.book.limits[OATS].initial, 160);
}

/// The season before June 2024 ends with the mark that one wheat made, and a full window of the other.
#[test]
fn the_other_wheats_new_limits_drop_a_mark() {
    for (marks, expanded, renewed) in [
        (CHICAGO_WHEAT, 360, KC_WHEAT),
        (KC_WHEAT, 440, CHICAGO_WHEAT),
    ] {
        let mut trial = expanded_by(marks);
        wheat_day(&mut trial, &[(marks, 0, expanded)]);
        assert_eq!(trial.book.standings[WHEATS], MARKED);
        trial.book.windows.iter_mut().for_each(Vec::clear);
        trial.book.windows[renewed] = vec![6_000; 45];
        assert!(trial.open_after([2024, 4, 30])[renewed]);
        assert_eq!(trial.book.standings[WHEATS], INITIAL);
        assert_eq!(trial.book.limits[renewed].initial, 440);
        // The one that moved keeps its limits, and is held to its I.
        let initial = trial.book.limits[marks].initial;
        trial.assert_limit(marks, initial);
        let event = trial.rest_of_day(&[(marks, 0, i64::from(initial))])[WHEATS];
        assert_eq!(event, Event::Triggered(contract(marks, 0)));
        let event = wheat_day(&mut trial, &[(marks, 0, expanded)]);
        assert_eq!(event, Event::Held(contract(marks, 0)));
    }
}
