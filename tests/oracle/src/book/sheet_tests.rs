//! Sheets and checks by hand, with their refusals in order.

use super::by_hand::{contracts, Trial, CORN_SPAN, JULY, LIMITS};
use super::Book;
use crate::refusal::Refusal;
use crate::verdict::Verdict;

/// A book on its second day, with ten contracts at 6,000 on the last ended sheets.
fn second_day() -> Book {
    let mut trial = Trial::new(LIMITS);
    trial.open();
    trial.book
}

/// The refusal of a Corn sheet, which must leave the book as it was.
fn refusal(book: &Book, product: u32, months: &[u32], settlements: &[u32]) -> Option<Refusal> {
    let mut lent = book.clone();
    let outcome = lent.file(product, months, settlements);
    assert_eq!(outcome.is_err(), lent == *book);
    outcome.err()
}

fn corn() -> (Vec<u32>, Vec<u32>) {
    (contracts(0, JULY, 10), vec![6_000; 10])
}

#[test]
fn a_sheet_needs_a_day_a_product_and_a_shape() {
    let (months, settlements) = corn();
    let mut closed = second_day();
    closed.is_open = false;
    assert_eq!(refusal(&closed, 8, &[], &[]), Some(Refusal::Day));
    let mut book = second_day();
    assert_eq!(refusal(&book, 8, &[], &[]), Some(Refusal::Product));
    assert_eq!(refusal(&book, 0, &[], &[]), Some(Refusal::Shape));
    assert_eq!(
        refusal(&book, 0, &months, &settlements[1..]),
        Some(Refusal::Shape)
    );
    assert_eq!(refusal(&book, 0, &[1; 17], &[1; 17]), Some(Refusal::Shape));
    book.file(0, &months, &settlements).expect("a sheet");
    assert_eq!(refusal(&book, 0, &[], &[]), Some(Refusal::AlreadyIn));
}

#[test]
fn sheets_of_one_and_of_sixteen() {
    let mut trial = Trial::new(LIMITS);
    trial.book.last_ended = Default::default();
    trial.open();
    assert_eq!(refusal(&trial.book, 0, &[JULY], &[6_000]), None);
    assert_eq!(
        refusal(&trial.book, 0, &contracts(0, JULY, 16), &[6_000; 16]),
        None
    );
    assert_eq!(refusal(&trial.book, 0, &[4_294_967_294], &[6_000]), None);
    assert_eq!(
        refusal(&trial.book, 0, &[4_294_967_295], &[6_000]),
        Some(Refusal::Month)
    );
}

#[test]
fn months_are_traded_ascending_and_not_before_the_date() {
    let book = second_day();
    let (months, settlements) = corn();
    let june = JULY - 1;
    for (place, month) in [
        (0, june),
        (0, JULY - 2),
        (1, JULY),
        (9, JULY),
        (1, JULY + 1),
    ] {
        let mut changed = months.clone();
        changed[place] = month;
        assert_eq!(
            refusal(&book, 0, &changed, &settlements),
            Some(Refusal::Month),
            "{month}"
        );
    }
}

#[test]
fn each_test_is_made_over_all_entries_before_the_next() {
    let book = second_day();
    let (months, settlements) = corn();
    let mut odd_first = settlements.clone();
    odd_first[0] = 6_001;
    let mut untraded_last = months.clone();
    untraded_last[9] += 1;
    assert_eq!(
        refusal(&book, 0, &untraded_last, &odd_first),
        Some(Refusal::Month)
    );
    let mut beyond_first = settlements.clone();
    beyond_first[0] = 6_202;
    assert_eq!(
        refusal(&book, 0, &untraded_last, &beyond_first),
        Some(Refusal::Month)
    );
    assert_eq!(
        refusal(&book, 0, &months[..9], &beyond_first[..9]),
        Some(Refusal::Absent)
    );
    assert_eq!(
        refusal(&book, 0, &months[..9], &odd_first[..9]),
        Some(Refusal::Price)
    );
    beyond_first[9] = 0;
    assert_eq!(
        refusal(&book, 0, &months, &beyond_first),
        Some(Refusal::Price)
    );
}

#[test]
fn the_limit_of_a_sheet_includes_its_ends() {
    let book = second_day();
    let (months, mut settlements) = corn();
    for (settlement, expected) in [
        (6_200, None),
        (5_800, None),
        (6_202, Some(Refusal::Beyond)),
        (5_798, Some(Refusal::Beyond)),
        (6_201, Some(Refusal::Price)),
        (1_000_002, Some(Refusal::Price)),
    ] {
        settlements[9] = settlement;
        assert_eq!(
            refusal(&book, 0, &months, &settlements),
            expected,
            "{settlement}"
        );
    }
}

#[test]
fn spot_contracts_may_leave_and_move() {
    let mut trial = Trial::new(LIMITS);
    trial.next_day = 27;
    trial.open_with(1);
    let (months, mut settlements) = corn();
    assert_eq!(
        refusal(&trial.book, 0, &months[1..], &settlements[1..]),
        None
    );
    assert_eq!(
        refusal(&trial.book, 0, &months[2..], &settlements[2..]),
        Some(Refusal::Absent)
    );
    settlements[0] = 1_000_000;
    assert_eq!(refusal(&trial.book, 0, &months, &settlements), None);
}

#[test]
fn a_check_answers_by_the_limit() {
    let book = second_day();
    for (price, verdict) in [
        (6_200, Verdict::Within(CORN_SPAN)),
        (5_800, Verdict::Within(CORN_SPAN)),
        (6_202, Verdict::Above(CORN_SPAN)),
        (5_798, Verdict::Below(CORN_SPAN)),
    ] {
        assert_eq!(book.check(0, 0, JULY, price), Ok(verdict), "{price}");
    }
    assert_eq!(book.check(0, 1, JULY, 6_201), Ok(Verdict::Above(CORN_SPAN)));
    assert_eq!(
        book.check(0, 1, JULY, 6_199),
        Ok(Verdict::Within(CORN_SPAN))
    );
}

#[test]
fn refusals_of_a_check_in_order() {
    let mut book = second_day();
    assert_eq!(book.check(0, 0, JULY, 6_001), Err(Refusal::Price));
    assert_eq!(book.check(0, 0, JULY + 1, 6_001), Err(Refusal::NotListed));
    assert_eq!(book.check(8, 0, JULY + 1, 0), Err(Refusal::Product));
    assert_eq!(book.check(2, 1, JULY + 1, 0), Err(Refusal::Product));
    assert_eq!(book.check(0, 2, JULY + 1, 0), Err(Refusal::Product));
    book.is_open = false;
    assert_eq!(book.check(8, 0, JULY + 1, 0), Err(Refusal::Day));
}

#[test]
fn a_listed_month_that_has_passed_is_14() {
    let mut trial = Trial::new(LIMITS);
    trial.book.open(2024, 8, 1, 20).expect("an opening");
    assert_eq!(trial.book.check(0, 0, JULY, 6_000), Err(Refusal::NotListed));
    assert_eq!(trial.book.check(1, 0, JULY + 1, 9_000), Ok(Verdict::Free));
    assert_eq!(trial.book.check(1, 0, JULY + 1, 9_001), Err(Refusal::Price));
}

#[test]
fn on_the_first_day_every_month_is_14() {
    let mut book = Book::found(2023, LIMITS).expect("fit limits");
    book.open(2024, 6, 27, 1).expect("an opening");
    assert_eq!(book.check(0, 0, JULY, 6_000), Err(Refusal::NotListed));
}

#[test]
fn todays_sheets_change_no_check() {
    let mut book = second_day();
    let (months, _) = corn();
    book.file(0, &months, &[6_200; 10]).expect("a sheet");
    assert_eq!(book.check(0, 0, JULY, 6_202), Ok(Verdict::Above(CORN_SPAN)));
}
