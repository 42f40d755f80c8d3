//! Ends under the edition of 2014, by hand: what two contracts trigger, what one does, what holds, and who leads.

use super::by_hand::{
    contract, contracts, Change, Trial, CHICAGO_WHEAT, CORN, EXPANDED, JULY, KC_WHEAT, LIMITS,
    MEAL, OATS, OIL, RICE, SOYBEANS,
};
use super::end::Event;
use super::groups::{group_of, COMPLEX, WHEATS};
use super::sheet::LARGEST_SHEET;
use super::{Limits, Standing, GROUPS, GROUP_COUNT};
use crate::products::PRODUCTS;

const INITIAL: Standing = Standing::INITIAL;

/// The places of the first two contracts of the last crop-year month, of which the first N have the first alone.
/// Corn's are September 2024 and 2025, the wheats' and Oats' May 2025 and 2026, Rough Rice's July 2024 and 2025.
const CROP_PLACES: [[usize; 2]; 8] = [
    [1, 6],
    [1, 8],
    [2, 10],
    [2, 10],
    [4, 9],
    [4, 9],
    [4, 9],
    [0, 6],
];

/// A book after days on which the largest sheets settled.
fn under(edition: u32) -> Trial {
    let mut trial = Trial::under(edition, LIMITS);
    trial.months = (0..8)
        .map(|product| contracts(product, JULY, LARGEST_SHEET))
        .collect();
    trial.settlements = vec![vec![6_000; LARGEST_SHEET]; 8];
    trial.day(&[]);
    trial
}

fn trial() -> Trial {
    under(2014)
}

/// A group's event after a day with these changes.
fn event(group: usize, changes: &[Change]) -> Event {
    trial().day(changes)[group]
}

fn initial(product: usize) -> i64 {
    i64::from(LIMITS[product])
}

fn expanded(product: usize) -> i64 {
    i64::from(Limits::from_initial(product, LIMITS[product]).expanded)
}

fn tick(product: usize) -> i64 {
    i64::from(PRODUCTS[product].standard_tick)
}

/// A group at the expanded level, by the crop-year month of its first product.
fn expanded_group(group: usize, edition: u32) -> Trial {
    let mut trial = under(edition);
    let product = GROUPS[group][0];
    trial.day(&[(product, CROP_PLACES[product][0], initial(product))]);
    assert_eq!(trial.book.standings[group], EXPANDED);
    trial
}

/// The nearest of the places leads, if the product triggers.
fn triggered(product: usize, places: &[usize]) -> Event {
    let nearest = places.iter().min().expect("a contract triggers");
    Event::Triggered(contract(product, *nearest))
}

#[test]
fn one_contract_alone_triggers_by_the_crop_year_month_among_the_first_alone() {
    for product in 0..8 {
        for place in 0..LARGEST_SHEET {
            for change in [initial(product), -initial(product)] {
                let due = match place == CROP_PLACES[product][0] {
                    true => triggered(product, &[place]),
                    false => Event::Quiet,
                };
                let event = event(group_of(product), &[(product, place, change)]);
                assert_eq!(event, due, "{product} {place} {change}");
            }
        }
    }
}

#[test]
fn two_contracts_trigger_where_both_are_among_the_first() {
    for product in 0..8 {
        let first = PRODUCTS[product].first;
        for later in 1..LARGEST_SHEET {
            for nearer in 0..later {
                let is_due = later < first || nearer == CROP_PLACES[product][0];
                let due = match is_due {
                    true => triggered(product, &[nearer]),
                    false => Event::Quiet,
                };
                let up_and_down = [
                    (product, nearer, initial(product)),
                    (product, later, -initial(product)),
                ];
                let event = event(group_of(product), &up_and_down);
                assert_eq!(event, due, "{product} {nearer} {later}");
            }
        }
    }
}

#[test]
fn two_contracts_trigger_whichever_way_they_move() {
    for [first, second] in [[200, 200], [200, -200], [-200, 200], [-200, -200]] {
        let event = event(0, &[(CORN, 0, first), (CORN, 4, second)]);
        assert_eq!(event, triggered(CORN, &[0, 4]));
    }
    let all = [0, 1, 2, 3, 4].map(|place| (CORN, place, -200));
    assert_eq!(event(0, &all), triggered(CORN, &[0]));
}

#[test]
fn one_tick_off_is_no_move_of_i() {
    for product in 0..8 {
        let group = group_of(product);
        let [crop, _] = CROP_PLACES[product];
        let others: Vec<usize> = (0..PRODUCTS[product].first)
            .filter(|&place| place != crop)
            .collect();
        for off in [
            initial(product) - tick(product),
            tick(product) - initial(product),
        ] {
            let one_off = [
                (product, others[0], initial(product)),
                (product, others[1], off),
            ];
            assert_eq!(event(group, &one_off), Event::Quiet, "{product}");
            assert_eq!(
                event(group, &[(product, crop, off)]),
                Event::Quiet,
                "{product}"
            );
        }
    }
}

#[test]
fn one_contract_in_each_of_several_products_does_not_trigger() {
    for products in [
        &[SOYBEANS, OIL][..],
        &[SOYBEANS, MEAL],
        &[OIL, MEAL],
        &[SOYBEANS, OIL, MEAL],
        &[CHICAGO_WHEAT, KC_WHEAT],
    ] {
        let group = group_of(products[0]);
        // Place 0 is the July contract, place 3 another; neither ends a crop year.
        for place in [0, 3] {
            let one_each: Vec<Change> = products
                .iter()
                .map(|&product| (product, place, initial(product)))
                .collect();
            assert_eq!(event(group, &one_each), Event::Quiet, "{products:?}");
        }
    }
}

#[test]
fn two_contracts_of_two_groups_trigger_neither() {
    let mut trial = trial();
    let events = trial.day(&[(CORN, 0, 200), (OATS, 0, 160), (CHICAGO_WHEAT, 0, 240)]);
    assert_eq!(events, [Event::Quiet; GROUP_COUNT]);
    assert_eq!(trial.book.standings, [INITIAL; GROUP_COUNT]);
}

#[test]
fn one_product_widens_its_whole_group() {
    for (group, products) in GROUPS.iter().enumerate() {
        for &product in *products {
            let mut trial = trial();
            let [crop, _] = CROP_PLACES[product];
            let events = trial.day(&[(product, crop, initial(product))]);
            for other in 0..GROUP_COUNT {
                let due = match other == group {
                    true => (triggered(product, &[crop]), EXPANDED),
                    false => (Event::Quiet, INITIAL),
                };
                assert_eq!((events[other], trial.book.standings[other]), due);
            }
            trial.open();
            for &other in *products {
                // The July contract is where it was, unless it is the one that moved.
                if (other, 0) != (product, crop) {
                    trial.assert_limit(other, expanded(other) as u32);
                }
            }
        }
    }
}

#[test]
fn another_products_amount_is_none_of_its_own() {
    let mut limits = LIMITS;
    limits[KC_WHEAT] = 280;
    let mut trial = Trial::under(2014, limits);
    // Chicago Wheat's I in two contracts of KC Wheat, and in its crop-year month.
    let events = trial.day(&[(KC_WHEAT, 0, 240), (KC_WHEAT, 1, 240), (KC_WHEAT, 4, 240)]);
    assert_eq!(events[WHEATS], Event::Quiet);
    let events = trial.day(&[(KC_WHEAT, 0, 280), (KC_WHEAT, 1, -280)]);
    assert_eq!(events[WHEATS], triggered(KC_WHEAT, &[0]));
    // Chicago Wheat's E in KC Wheat.
    assert_eq!(trial.day(&[(KC_WHEAT, 0, 360)])[WHEATS], Event::Reverted);
}

#[test]
fn a_product_that_does_not_trigger_does_not_lead() {
    // Soybeans and Oil are nearer, and Oil lower in the same month.
    let nearer = [(SOYBEANS, 0, 400), (OIL, 1, -200)];
    let two = [(MEAL, 3, 200), (MEAL, 5, -200)];
    assert_eq!(
        event(COMPLEX, &[&nearer[..], &two].concat()),
        triggered(MEAL, &[3])
    );
    assert_eq!(
        event(COMPLEX, &[(OIL, 0, 200), (MEAL, 2, 200)]),
        triggered(MEAL, &[2])
    );
    for nearer in [0, 2] {
        let kc = [(KC_WHEAT, 2, 240), (KC_WHEAT, 3, 240)];
        let chicago = [(CHICAGO_WHEAT, nearer, 240)];
        assert_eq!(
            event(WHEATS, &[&chicago[..], &kc].concat()),
            triggered(KC_WHEAT, &[2])
        );
    }
}

#[test]
fn of_products_that_trigger_the_nearest_month_leads_then_the_lowest() {
    let soybeans = [(SOYBEANS, 3, 400), (SOYBEANS, 4, 400)];
    let oil = [(OIL, 2, 200)];
    assert_eq!(
        event(COMPLEX, &[&soybeans[..], &oil].concat()),
        triggered(OIL, &[2])
    );
    let wheats = [4, 5].map(|product| (product, 4, 240));
    assert_eq!(event(WHEATS, &wheats), triggered(CHICAGO_WHEAT, &[4]));
    let meal = [(MEAL, 0, 200), (MEAL, 7, 200)];
    let oil = [(OIL, 0, 200), (OIL, 6, 200)];
    assert_eq!(
        event(COMPLEX, &[&meal[..], &oil].concat()),
        triggered(OIL, &[0])
    );
}

/// A book whose last ended sheet of Corn lacks a contract, which today's lists.
fn with_new_corn(place: usize) -> Trial {
    let mut trial = trial();
    trial.book.last_ended[CORN]
        .as_mut()
        .expect("a sheet")
        .remove(place);
    trial
}

#[test]
fn a_contract_without_a_change_does_not_count() {
    for settlement in [6_200, 5_800, 200] {
        // September, which ends the crop year.
        let mut trial = with_new_corn(1);
        trial.settlements[CORN][1] = settlement;
        assert_eq!(trial.day(&[(CORN, 0, 200)])[0], Event::Quiet);
        let mut trial = with_new_corn(2);
        trial.settlements[CORN][2] = settlement;
        assert_eq!(trial.day(&[(CORN, 0, 200)])[0], Event::Quiet);
    }
}

#[test]
fn a_contract_without_a_change_takes_its_place() {
    let sixth = |trial: &mut Trial| trial.day(&[(CORN, 0, 200), (CORN, 5, 200)])[0];
    assert_eq!(sixth(&mut with_new_corn(2)), Event::Quiet);
    // The fifth is still among the first.
    let event = with_new_corn(2).day(&[(CORN, 4, 200), (CORN, 0, 200)])[0];
    assert_eq!(event, triggered(CORN, &[0]));
}

#[test]
fn a_spot_contract_does_not_count_and_takes_no_place() {
    let mut trial = trial();
    trial.next_day = 27;
    trial.open_with(1);
    // July is spot, so that the first five end with July 2025.
    let events = trial.rest_of_day(&[(CORN, 0, 200), (CORN, 2, 200), (RICE, 0, 100)]);
    assert_eq!([events[0], events[group_of(RICE)]], [Event::Quiet; 2]);
    trial.open_with(0);
    let events = trial.rest_of_day(&[(CORN, 5, 200), (CORN, 2, 200), (RICE, 6, 100)]);
    assert_eq!(events[0], triggered(CORN, &[2]));
    assert_eq!(events[group_of(RICE)], triggered(RICE, &[6]));
}

#[test]
fn expanded_is_held_by_e_wherever_it_is_listed() {
    for product in 0..8 {
        let group = group_of(product);
        for place in [0, 1, PRODUCTS[product].first, LARGEST_SHEET - 1] {
            for change in [expanded(product), -expanded(product)] {
                let mut trial = expanded_group(group, 2014);
                let events = trial.day(&[(product, place, change)]);
                assert_eq!(events[group], Event::Held(contract(product, place)));
                assert_eq!(trial.book.standings[group], EXPANDED);
            }
        }
    }
}

#[test]
fn expanded_reverts_by_all_but_e() {
    for product in 0..8 {
        let group = group_of(product);
        let (i, e) = (initial(product), expanded(product));
        for change in [
            0,
            i,
            -i,
            i + tick(product),
            e - tick(product),
            tick(product) - e,
        ] {
            let mut trial = expanded_group(group, 2014);
            // Every contract of the product moves so.
            let changes = Vec::from_iter((0..LARGEST_SHEET).map(|place| (product, place, change)));
            assert_eq!(trial.day(&changes)[group], Event::Reverted, "{change}");
            assert_eq!(trial.book.standings[group], INITIAL);
        }
    }
}

#[test]
fn exactly_i_at_the_expanded_level_holds_in_2023_alone() {
    for (edition, due) in [
        (2014, Event::Reverted),
        (2023, Event::Held(contract(CORN, 0))),
    ] {
        let mut trial = expanded_group(0, edition);
        assert_eq!(trial.day(&[(CORN, 0, -200)])[0], due);
    }
}

#[test]
fn held_is_led_by_a_contract_at_e() {
    let mut trial = expanded_group(COMPLEX, 2014);
    let nearer = [(SOYBEANS, 0, 598), (OIL, 0, 200), (MEAL, 1, -299)];
    let at_e = [(MEAL, 8, 300), (OIL, 8, -300), (SOYBEANS, 9, 600)];
    let events = trial.day(&[nearer, at_e].concat());
    assert_eq!(events[COMPLEX], Event::Held(contract(OIL, 8)));
}

#[test]
fn e_day_after_day_is_held_and_neither_marks_nor_raises() {
    for product in 0..8 {
        let group = group_of(product);
        let mut trial = expanded_group(group, 2014);
        for change in [1, -1, 1, 1].map(|way| way * expanded(product)) {
            let events = trial.day(&[(product, 0, change)]);
            assert_eq!(events[group], Event::Held(contract(product, 0)));
            assert_eq!(trial.book.standings[group], EXPANDED);
            assert_eq!(trial.book.limits[product].initial, LIMITS[product]);
        }
        assert_eq!(trial.day(&[])[group], Event::Reverted);
        trial.open();
        trial.assert_limit(product, LIMITS[product]);
    }
}

#[test]
fn a_group_that_reverted_triggers_again_by_two() {
    let mut trial = expanded_group(0, 2014);
    assert_eq!(trial.day(&[(CORN, 1, 200)])[0], Event::Reverted);
    assert_eq!(trial.day(&[(CORN, 0, 200)])[0], Event::Quiet);
    let event = trial.day(&[(CORN, 0, 200), (CORN, 2, 200)])[0];
    assert_eq!(event, triggered(CORN, &[0]));
}

#[test]
fn moves_that_no_list_of_calls_reaches() {
    for (standing, beyond, due) in [
        (INITIAL, 162, Event::Quiet),
        (EXPANDED, 242, Event::Reverted),
    ] {
        let mut trial = trial();
        trial.open();
        (0..8).for_each(|product| trial.file(product));
        trial.book.standings[group_of(OATS)] = standing;
        let sheet = trial.book.sheets_in[OATS].as_mut().expect("a sheet");
        sheet
            .iter_mut()
            .for_each(|entry| entry.settlement += beyond);
        assert!(trial.book.is_sound());
        assert_eq!(trial.book.end().expect("an end")[group_of(OATS)], due);
        assert_eq!(trial.book.standings[group_of(OATS)], INITIAL);
    }
}

/// The season before June 2024 ends with an expanded group.
#[test]
fn a_season_starts_narrow_where_it_gives_new_limits() {
    for (length, standing, limit) in [(44, EXPANDED, 320), (45, INITIAL, 440)] {
        let mut trial = expanded_group(0, 2014);
        trial.book.windows = Default::default();
        trial.book.windows[CORN] = vec![6_000; length];
        let renewed = trial.open_after([2024, 4, 30]);
        assert_eq!(renewed[CORN], length == 45);
        assert_eq!(trial.book.standings[0], standing);
        trial.assert_limit(CORN, limit);
        assert_eq!(trial.book.edition, 2014);
    }
}

#[test]
fn the_edition_outlives_every_call() {
    for edition in [2014, 2023] {
        let mut trial = under(edition);
        trial.open();
        assert_eq!(trial.book.edition, edition);
        trial.rest_of_day(&[(CORN, 1, 200)]);
        assert_eq!(trial.book.edition, edition);
        assert!(trial.book.open(2024, 11, 1, 20).is_ok());
        assert_eq!(trial.book.edition, edition);
    }
}
