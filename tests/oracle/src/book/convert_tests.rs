//! Conversions by hand: what they refuse, what they keep, and what the days after them make of it.

use super::by_hand::{
    contract, open_book_under, Trial, CORN, CORN_SPAN, EXPANDED, JULY, LIMITS, MARKED, OATS,
};
use super::edition::EDITIONS;
use super::end::Event;
use super::{Book, Limits, Standing, GROUP_COUNT};
use crate::refusal::Refusal;
use crate::verdict::Verdict;

/// The refusal of a conversion, which leaves the book as it was.
fn refusal(book: &Book) -> Option<Refusal> {
    let mut after = book.clone();
    let refusal = after.convert().err()?;
    assert_eq!(after, *book);
    Some(refusal)
}

fn converted(book: &Book) -> Book {
    let mut after = book.clone();
    assert_eq!(after.convert(), Ok(()));
    after
}

/// The book with nothing changed but its edition.
fn under_2023(book: &Book) -> Book {
    Book {
        edition: 2023,
        ..book.clone()
    }
}

/// A book under 2014 after one ended day, converted.
fn carried() -> Trial {
    let mut trial = Trial::under(2014, LIMITS);
    assert_eq!(trial.book.convert(), Ok(()));
    trial
}

#[test]
fn a_fresh_book_becomes_one_that_2023_founds() {
    let [old, new] = EDITIONS.map(|edition| Book::found(edition, LIMITS).expect("fit limits"));
    assert_eq!(converted(&old), new);
    assert_eq!(converted(&new), new);
}

#[test]
fn a_conversion_keeps_all_but_the_edition() {
    let mut book = Trial::under(2014, LIMITS).book;
    assert!(book.last_ended.iter().all(Option::is_some) && book.left > 0);
    assert!(book.windows.iter().all(|window| window.len() == 1));
    assert_eq!(converted(&book), under_2023(&book));
    book.windows[3] = vec![3_500; 45];
    book.windows[7].clear();
    book.limits[0] = Limits::from_initial(0, 2_000_000);
    assert_eq!(converted(&book), under_2023(&book));
    book.last_ended = Default::default();
    assert_eq!(converted(&book), under_2023(&book));
}

#[test]
fn a_book_under_2023_stays_as_it_is_whatever_its_levels() {
    let mut book = Trial::new(LIMITS).book;
    assert_eq!(converted(&book), book);
    for standing in [EXPANDED, MARKED] {
        for group in 0..GROUP_COUNT {
            book.standings[group] = standing;
            assert_eq!(converted(&book), book, "{group}");
        }
    }
}

#[test]
fn a_conversion_again_changes_nothing() {
    let once = carried().book;
    assert_eq!(converted(&once), once);
    assert_eq!(converted(&converted(&once)), once);
}

#[test]
fn an_open_day_is_refused_under_both_editions() {
    for edition in EDITIONS {
        let mut first = Book::found(edition, LIMITS).expect("fit limits");
        assert_eq!(first.open(2024, 6, 3, 19), Ok([false; 8]));
        assert_eq!(refusal(&first), Some(Refusal::Day), "{edition}");
        let mut book = open_book_under(edition);
        assert_eq!(refusal(&book), Some(Refusal::Day), "{edition}");
        book.standings[4] = EXPANDED;
        assert_eq!(refusal(&book), Some(Refusal::Day), "{edition}");
    }
}

#[test]
fn an_expanded_group_is_refused_under_2014_alone() {
    let book = Trial::under(2014, LIMITS).book;
    for group in 0..GROUP_COUNT {
        let mut expanded = book.clone();
        expanded.standings[group] = EXPANDED;
        assert_eq!(refusal(&expanded), Some(Refusal::Expanded), "{group}");
        expanded.standings = [EXPANDED; GROUP_COUNT];
        expanded.standings[group] = Standing::INITIAL;
        assert_eq!(refusal(&expanded), Some(Refusal::Expanded), "{group}");
        assert_eq!(refusal(&under_2023(&expanded)), None, "{group}");
    }
}

/// A book under 2014 to which each refusal applies or does not.
fn faulty(is_unsound: bool, is_open: bool, is_expanded: bool) -> Book {
    let mut book = match is_open {
        true => open_book_under(2014),
        false => Trial::under(2014, LIMITS).book,
    };
    if is_expanded {
        book.standings[0] = EXPANDED;
    }
    if is_unsound {
        // June has 30 days.
        book.left = 31;
    }
    book
}

#[test]
fn refusals_come_in_the_order_1_2_18() {
    for (is_unsound, is_open, is_expanded, due) in [
        (false, false, false, None),
        (false, false, true, Some(Refusal::Expanded)),
        (false, true, false, Some(Refusal::Day)),
        (false, true, true, Some(Refusal::Day)),
        (true, false, false, Some(Refusal::Unsound)),
        (true, false, true, Some(Refusal::Unsound)),
        (true, true, false, Some(Refusal::Unsound)),
        (true, true, true, Some(Refusal::Unsound)),
    ] {
        let book = faulty(is_unsound, is_open, is_expanded);
        assert_eq!(refusal(&book), due, "{is_unsound} {is_open} {is_expanded}");
    }
}

#[test]
fn no_edition_and_a_mark_under_2014_are_unsound() {
    let mut book = Trial::under(2014, LIMITS).book;
    for edition in [0, 2013, 2015, 2022, 2024, u32::MAX] {
        book.edition = edition;
        assert_eq!(refusal(&book), Some(Refusal::Unsound), "{edition}");
    }
    book.edition = 2014;
    book.standings[2] = MARKED;
    assert_eq!(refusal(&book), Some(Refusal::Unsound));
    assert_eq!(refusal(&under_2023(&book)), None);
}

/// July and December Corn at I expand it, and a day later it is back.
fn reverted_under_2014() -> Trial {
    let mut trial = Trial::under(2014, LIMITS);
    let triggered = Event::Triggered(contract(CORN, 0));
    assert_eq!(trial.day(&[(CORN, 0, 200), (CORN, 2, -200)])[0], triggered);
    assert_eq!(refusal(&trial.book), Some(Refusal::Expanded));
    assert_eq!(trial.day(&[(CORN, 0, 200)])[0], Event::Reverted);
    trial
}

/// December Corn is no crop month, and 2014 asks for two contracts.
#[test]
fn a_group_that_reverted_is_triggered_by_one_contract_after_it() {
    let december = [(CORN, 2, 200)];
    assert_eq!(reverted_under_2014().day(&december)[0], Event::Quiet);
    let mut trial = reverted_under_2014();
    assert_eq!(converted(&trial.book), under_2023(&trial.book));
    trial.book = converted(&trial.book);
    let triggered = Event::Triggered(contract(CORN, 2));
    assert_eq!(trial.day(&december)[0], triggered);
    assert_eq!(trial.book.standings[0], EXPANDED);
    trial.open();
    trial.assert_limit(CORN, 320);
}

#[test]
fn the_last_opened_day_and_its_left_pass_through() {
    let mut trial = Trial::under(2014, LIMITS);
    trial.next_day = 20;
    trial.open_with(6);
    trial.rest_of_day(&[]);
    let mut book = converted(&trial.book);
    assert_eq!((book.date, book.left), (Some([2024, 6, 20]), 6));
    assert_eq!(book.open(2024, 6, 20, 5), Err(Refusal::NotLater));
    assert_eq!(book.open(2024, 6, 19, 7), Err(Refusal::NotLater));
    assert_eq!(book.open(2024, 6, 21, 6), Err(Refusal::NotSmaller));
    assert_eq!(book.open(2024, 6, 21, 7), Err(Refusal::NotSmaller));
    assert_eq!(book.open(2024, 6, 21, 5), Ok([false; 8]));
}

#[test]
fn the_last_sheets_pass_through() {
    let mut trial = carried();
    trial.open();
    let within = Ok(Verdict::Within(CORN_SPAN));
    assert_eq!(trial.book.check(0, 0, JULY, 6_200), within);
    trial.assert_limit(CORN, 200);
    let (months, settlements) = (&trial.months[0][1..], &trial.settlements[0][1..]);
    let filed = trial.book.file(0, months, settlements);
    assert_eq!(filed, Err(Refusal::Absent));
}

/// December Corn alone at I: it is no crop month, and 2014 asks for two.
#[test]
fn one_contract_triggers_on_the_day_after() {
    let change = (CORN, 2, 200);
    assert_eq!(Trial::under(2014, LIMITS).day(&[change])[0], Event::Quiet);
    let triggered = Event::Triggered(contract(CORN, 2));
    assert_eq!(carried().day(&[change])[0], triggered);
}

#[test]
fn groups_are_held_by_i_and_raised_by_e_after_it() {
    let mut trial = carried();
    let lead = contract(OATS, 0);
    assert_eq!(trial.day(&[(OATS, 0, 160)])[3], Event::Triggered(lead));
    assert_eq!(converted(&trial.book), trial.book);
    assert_eq!(trial.day(&[(OATS, 0, 160)])[3], Event::Held(lead));
    assert_eq!(trial.day(&[(OATS, 0, 240)])[3], Event::Held(lead));
    assert_eq!(trial.book.standings[3], MARKED);
    assert_eq!(converted(&trial.book), trial.book);
    assert_eq!(trial.day(&[(OATS, 0, -240)])[3], Event::Raised(lead));
    assert_eq!(trial.book.limits[OATS], Limits::from_initial(OATS, 240));
}

/// Year, month, day and left of the 44 days after the first one of a trial.
fn dates() -> impl Iterator<Item = [u32; 4]> {
    let june = (4..=30).map(|day| [2024, 6, day, 30 - day]);
    june.chain((1..=17).map(|day| [2024, 7, day, 31 - day]))
}

/// A book in the season after 45 days, of which so many ended under 2014. From the conversion on December Corn, the
/// collected contract, settles 198 higher every day, which triggers nothing.
fn after_a_season(under_2014: usize) -> Book {
    let mut trial = Trial::under(2014, LIMITS);
    for ([year, month, day, left], ended) in dates().zip(1..) {
        if ended == under_2014 {
            assert_eq!(trial.book.convert(), Ok(()));
        }
        assert_eq!(trial.book.open(year, month, day, left), Ok([false; 8]));
        let rise = if ended < under_2014 { 0 } else { 198 };
        let events = trial.rest_of_day(&[(CORN, 2, rise)]);
        assert_eq!(events, [Event::Quiet; GROUP_COUNT]);
    }
    if under_2014 == 45 {
        assert_eq!(trial.book.convert(), Ok(()));
    }
    assert!(trial.book.windows.iter().all(|window| window.len() == 45));
    assert_eq!(trial.book.open(2024, 11, 1, 20), Ok([true; 8]));
    trial.book
}

/// With n days under 2023 their sum is 45 x 6,000 and 198 x n x (n + 1) / 2 above it.
#[test]
fn a_window_filled_on_either_side_gives_one_season_limit() {
    for (under_2014, initial) in [(1, 720), (20, 520), (44, 440), (45, 440)] {
        let book = after_a_season(under_2014);
        let due = Limits::from_initial(CORN, initial);
        assert_eq!(book.limits[CORN], due, "{under_2014}");
        assert_eq!(book.limits[OATS], Limits::from_initial(OATS, 440));
        assert!(book.windows.iter().all(Vec::is_empty));
    }
}
