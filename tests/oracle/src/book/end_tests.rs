//! The marked numbers (h) to (n), and further ends by hand.

use super::by_hand::{
    contract, Trial, CHICAGO_WHEAT, CORN, CORN_SPAN, EXPANDED, JULY, KC_WHEAT, LIMITS, MARKED,
    MEAL, OATS, OIL, SOYBEANS,
};
use super::end::Event;
use super::groups::{group_of, COMPLEX};
use super::{Limits, Standing};
use crate::refusal::Refusal;
use crate::verdict::{Span, Verdict};

const INITIAL: Standing = Standing::INITIAL;

fn corn() -> Trial {
    Trial::new(LIMITS)
}

/// Corn 200/320 at the expanded level.
fn expanded_corn() -> Trial {
    let mut trial = corn();
    trial.day(&[(CORN, 0, 200)]);
    assert_eq!(trial.book.standings[0], EXPANDED);
    trial
}

#[test]
fn marked_h_july_is_free_on_27_june_with_left_1() {
    let mut trial = corn();
    trial.next_day = 26;
    trial.open_with(2);
    assert_eq!(
        trial.book.check(0, 0, JULY, 9_000),
        Ok(Verdict::Above(CORN_SPAN))
    );
    trial.rest_of_day(&[]);
    trial.open_with(1);
    assert_eq!(trial.book.check(0, 0, JULY, 9_000), Ok(Verdict::Free));
    // A spot contract moves by any amount and triggers nothing.
    assert_eq!(trial.rest_of_day(&[(CORN, 0, 3_000)])[0], Event::Quiet);
}

#[test]
fn marked_i_the_fifth_at_minus_200_expands() {
    let mut trial = corn();
    let events = trial.day(&[(CORN, 4, -200)]);
    assert_eq!(events[0], Event::Triggered(contract(CORN, 4)));
    assert_eq!(trial.book.standings[0], EXPANDED);
    assert!(events[1..].iter().all(|event| *event == Event::Quiet));
    assert!(trial.book.standings[1..].iter().all(|one| *one == INITIAL));
}

#[test]
fn marked_j_the_sixth_alone_is_quiet() {
    let mut trial = corn();
    assert_eq!(trial.day(&[(CORN, 5, 200)])[0], Event::Quiet);
    assert_eq!(trial.book.standings[0], INITIAL);
}

#[test]
fn marked_k_expanded_the_sixth_holds() {
    let mut trial = expanded_corn();
    assert_eq!(
        trial.day(&[(CORN, 5, 200)])[0],
        Event::Held(contract(CORN, 5))
    );
    assert_eq!(trial.book.standings[0], EXPANDED);
}

#[test]
fn marked_l_expanded_198_reverts() {
    let mut trial = expanded_corn();
    assert_eq!(
        trial.day(&[(CORN, 5, 198), (CORN, 0, -198)])[0],
        Event::Reverted
    );
    assert_eq!(trial.book.standings[0], INITIAL);
}

#[test]
fn marked_m_two_expanded_days_at_320_raise() {
    let mut trial = expanded_corn();
    assert_eq!(
        trial.day(&[(CORN, 7, 320)])[0],
        Event::Held(contract(CORN, 7))
    );
    assert_eq!(trial.book.standings[0], MARKED);
    assert_eq!(
        trial.day(&[(CORN, 2, -320)])[0],
        Event::Raised(contract(CORN, 2))
    );
    assert_eq!(trial.book.standings[0], INITIAL);
    assert_eq!(
        trial.book.limits[0],
        Limits {
            initial: 320,
            expanded: 480
        }
    );
}

#[test]
fn marked_n_oil_alone_expands_all_three() {
    let mut trial = corn();
    let events = trial.day(&[(OIL, 7, 200)]);
    assert_eq!(events[COMPLEX], Event::Triggered(contract(OIL, 7)));
    assert_eq!(trial.book.standings[COMPLEX], EXPANDED);
    trial.open();
    for (product, limit) in [(1, 600), (2, 300), (3, 300)] {
        let span = Span {
            lowest: 6_000 - limit,
            highest: 6_000 + limit,
        };
        assert_eq!(
            trial.book.check(product, 0, JULY, span.highest),
            Ok(Verdict::Within(span))
        );
        assert_eq!(
            trial.book.check(product, 0, JULY, span.highest + 2),
            Ok(Verdict::Above(span))
        );
    }
}

#[test]
fn a_mark_needs_the_ended_day_before() {
    let mut trial = expanded_corn();
    trial.day(&[(CORN, 0, 320)]);
    assert_eq!(
        trial.day(&[(CORN, 0, 318)])[0],
        Event::Held(contract(CORN, 0))
    );
    assert_eq!(trial.book.standings[0], EXPANDED);
    assert_eq!(
        trial.day(&[(CORN, 0, 320)])[0],
        Event::Held(contract(CORN, 0))
    );
    assert_eq!(trial.book.standings[0], MARKED);
    assert_eq!(trial.day(&[])[0], Event::Reverted);
    assert_eq!(trial.book.standings[0], INITIAL);
}

#[test]
fn a_raise_in_the_complex_is_by_each_products_own_amounts() {
    let mut trial = corn();
    trial.day(&[(OIL, 0, 200)]);
    assert_eq!(
        trial.day(&[(MEAL, 0, 300)])[COMPLEX],
        Event::Held(contract(MEAL, 0))
    );
    assert_eq!(
        trial.day(&[(SOYBEANS, 9, -600)])[COMPLEX],
        Event::Raised(contract(SOYBEANS, 9))
    );
    let limits: Vec<(u32, u32)> = (1..=3)
        .map(|product| {
            (
                trial.book.limits[product].initial,
                trial.book.limits[product].expanded,
            )
        })
        .collect();
    assert_eq!(limits, [(600, 920), (300, 450), (300, 450)]);
}

#[test]
fn the_leading_contract_is_of_the_nearest_month_then_the_lowest_product() {
    let mut trial = corn();
    let events = trial.day(&[(MEAL, 1, 200), (OIL, 1, -200), (SOYBEANS, 2, 400)]);
    // Place 1 is August for all three; place 2 is September.
    assert_eq!(events[COMPLEX], Event::Triggered(contract(OIL, 1)));
    let events = trial.day(&[(MEAL, 0, 200), (OIL, 1, 300), (SOYBEANS, 0, 398)]);
    assert_eq!(events[COMPLEX], Event::Held(contract(MEAL, 0)));
    assert_eq!(trial.book.standings[COMPLEX], MARKED);
    // Meal holds in July, but the raise is led by a contract at E.
    let events = trial.day(&[(MEAL, 0, 250), (MEAL, 5, 300), (OIL, 5, 300)]);
    assert_eq!(events[COMPLEX], Event::Raised(contract(OIL, 5)));
}

#[test]
fn a_new_contract_has_no_change_but_takes_its_place() {
    let mut trial = corn();
    // Without September: place 4 of the sheet is then September 2025.
    let september = trial.months[CORN].remove(1);
    trial.settlements[CORN].remove(1);
    trial.book.last_ended[CORN]
        .as_mut()
        .expect("a sheet")
        .remove(1);
    trial.day(&[]);
    trial.months[CORN].insert(1, september);
    trial.settlements[CORN].insert(1, 1_000_000);
    assert_eq!(trial.day(&[(CORN, 5, 200)])[0], Event::Quiet);
    assert_eq!(
        trial.day(&[(CORN, 4, 200)])[0],
        Event::Triggered(contract(CORN, 4))
    );
}

#[test]
fn moves_that_no_list_of_calls_reaches() {
    let mut trial = corn();
    trial.open();
    (0..8).for_each(|product| trial.file(product));
    trial.book.sheets_in[OATS].as_mut().expect("a sheet")[0].settlement = 6_162;
    let mut expanded = trial.book.clone();
    expanded.standings[group_of(OATS)] = EXPANDED;
    assert_eq!(
        trial.book.end().expect("an end")[group_of(OATS)],
        Event::Quiet
    );
    expanded.sheets_in[OATS].as_mut().expect("a sheet")[0].settlement = 6_242;
    let events = expanded.end().expect("an end");
    assert_eq!(events[group_of(OATS)], Event::Held(contract(OATS, 0)));
    assert_eq!(expanded.standings[group_of(OATS)], EXPANDED);
}

#[test]
fn limits_meet_at_the_largest() {
    for (largest, driver, raises) in [
        (SOYBEANS, OIL, [(200, 300), (300, 450)]),
        (CHICAGO_WHEAT, KC_WHEAT, [(240, 360), (360, 560)]),
    ] {
        let mut limits = LIMITS;
        limits[largest] = 1_000_000;
        let mut trial = Trial::new(limits);
        for (initial, expanded) in raises {
            trial.day(&[(driver, 0, initial)]);
            trial.day(&[(driver, 0, expanded)]);
            let events = trial.day(&[(driver, 0, expanded)]);
            let raised = Event::Raised(contract(driver, 0));
            assert_eq!(events[group_of(largest)], raised);
        }
        let limits = trial.book.limits[largest];
        assert_eq!((limits.initial, limits.expanded), (2_000_000, 2_000_000));
        assert!(trial.book.is_sound());
    }
}

#[test]
fn an_end_needs_an_open_day_and_all_eight_sheets() {
    let mut trial = corn();
    assert_eq!(trial.book.end(), Err(Refusal::Day));
    trial.open();
    (0..7).for_each(|product| trial.file(product));
    let before = trial.book.clone();
    assert_eq!(trial.book.end(), Err(Refusal::Outstanding));
    assert_eq!(trial.book, before);
}

#[test]
fn windows_collect_push_out_and_empty() {
    let mut trial = corn();
    // In June: December for Corn and Oil, November for Soybeans and Rice.
    assert!(trial
        .book
        .windows
        .iter()
        .all(|window| window[..] == [6_000]));
    trial.book.windows[CORN] = (1..=45).map(|day| 100 * day).collect();
    // December is Corn's place 2, and Oats' sheet comes without it.
    trial.book.last_ended[OATS]
        .as_mut()
        .expect("a sheet")
        .remove(2);
    trial.months[OATS].remove(2);
    trial.settlements[OATS].remove(2);
    trial.day(&[(CORN, 2, 150)]);
    let corn = &trial.book.windows[CORN];
    assert_eq!((corn.len(), corn[0], corn[44]), (45, 200, 6_150));
    assert!(trial.book.windows[OATS].is_empty());
    assert_eq!(trial.book.windows[MEAL], [6_000, 6_000]);
}
