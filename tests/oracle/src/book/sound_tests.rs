//! Damage to each field, found by every call; and books that look odd but are sound.

use super::by_hand::{contracts, open_book, open_book_under, EXPANDED, JULY, LIMITS, MARKED};
use super::edition::EDITIONS;
use super::groups::group_of;
use super::sheet::entries;
use super::{Book, Entry, Limits};
use crate::refusal::Refusal;

type Damage = (&'static str, fn(&mut Book));

fn assert_unsound(start: &Book, damages: &[Damage]) {
    for (name, damage) in damages {
        let mut book = start.clone();
        damage(&mut book);
        let before = book.clone();
        assert_eq!(book.open(2024, 6, 28, 0), Err(Refusal::Unsound), "{name}");
        assert_eq!(book.file(9, &[], &[]), Err(Refusal::Unsound), "{name}");
        assert_eq!(book.end(), Err(Refusal::Unsound), "{name}");
        assert_eq!(book.check(9, 9, 0, 0), Err(Refusal::Unsound), "{name}");
        assert_eq!(book, before, "{name}");
    }
}

fn ended(book: &mut Book, product: usize) -> &mut Vec<Entry> {
    book.last_ended[product].as_mut().expect("an ended sheet")
}

fn sheet_in(book: &mut Book, product: usize) -> &mut Vec<Entry> {
    book.sheets_in[product].as_mut().expect("a sheet in")
}

#[test]
fn damaged_days() {
    assert_unsound(
        &open_book(),
        &[
            ("no date", |book| book.date = None),
            ("no date, no sheets", |book| {
                book.date = None;
                book.last_ended = Default::default();
            }),
            ("31 June", |book| book.date = Some([2024, 6, 31])),
            ("29 February", |book| book.date = Some([2023, 2, 29])),
            ("year 1999", |book| book.date = Some([1999, 6, 3])),
            ("year 2099", |book| book.date = Some([2099, 6, 3])),
            ("month 0", |book| book.date = Some([2024, 0, 3])),
            ("day 0", |book| book.date = Some([2024, 6, 0])),
            ("left", |book| book.left = 27),
            ("sheets in on a closed day", |book| book.is_open = false),
        ],
    );
    let fresh = Book::found(2023, LIMITS).expect("fit limits");
    assert_unsound(
        &fresh,
        &[
            ("open without a date", |book| book.is_open = true),
            ("left without a date", |book| book.left = 1),
        ],
    );
}

#[test]
fn damaged_limits_and_marks() {
    assert_unsound(
        &open_book(),
        &[
            ("E", |book| book.limits[0].expanded = 360),
            ("I", |book| book.limits[0].initial = 240),
            ("off the step", |book| {
                book.limits[2] = Limits::from_initial(2, 201)
            }),
            ("below the floor", |book| {
                book.limits[1] = Limits::from_initial(1, 360)
            }),
            ("above the largest", |book| {
                book.limits[7] = Limits::from_initial(7, 2_000_010)
            }),
            ("marked at the initial level", |book| {
                book.standings[group_of(7)].marked = true
            }),
        ],
    );
}

#[test]
fn damaged_editions() {
    for edition in EDITIONS {
        assert_unsound(
            &open_book_under(edition),
            &[
                ("edition 0", |book| book.edition = 0),
                ("edition 2013", |book| book.edition = 2013),
                ("edition 2015", |book| book.edition = 2015),
                ("edition 2022", |book| book.edition = 2022),
                ("edition 2024", |book| book.edition = 2024),
                ("the largest", |book| book.edition = u32::MAX),
            ],
        );
    }
}

#[test]
fn marks_of_2014() {
    let mut marked = open_book();
    marked.standings[group_of(7)] = MARKED;
    assert!(marked.is_sound());
    assert_unsound(&marked, &[("2014", |book| book.edition = 2014)]);
    let all: [Damage; 3] = [
        ("the first group", |book| book.standings[0] = MARKED),
        ("the last group", |book| {
            book.standings[group_of(7)] = MARKED
        }),
        ("at the initial level", |book| {
            book.standings[0].marked = true
        }),
    ];
    assert_unsound(&open_book_under(2014), &all);
}

#[test]
fn damaged_windows() {
    assert_unsound(
        &open_book(),
        &[
            ("46", |book| book.windows[3] = vec![6_000; 46]),
            ("0", |book| book.windows[7] = vec![6_000, 0]),
            ("odd", |book| book.windows[0] = vec![6_001]),
            ("too large", |book| book.windows[2] = vec![1_000_001]),
        ],
    );
}

#[test]
fn damaged_numbers_of_sheets() {
    assert_unsound(
        &open_book(),
        &[
            ("seven ended sheets", |book| book.last_ended[7] = None),
            ("one ended sheet", |book| book.last_ended[1..].fill(None)),
            ("an empty ended sheet", |book| ended(book, 4).clear()),
            ("an empty sheet in", |book| sheet_in(book, 7).clear()),
            ("17 entries", |book| {
                *ended(book, 2) = entries(&contracts(2, JULY, 17), &[6_000; 17]);
            }),
        ],
    );
}

#[test]
fn damaged_entries_of_sheets() {
    assert_unsound(
        &open_book(),
        &[
            ("an untraded month", |book| ended(book, 0)[9].month += 1),
            ("an untraded month in", |book| {
                sheet_in(book, 0)[9].month += 1
            }),
            ("months that descend", |book| ended(book, 6).swap(0, 9)),
            ("a month twice", |book| sheet_in(book, 7)[1].month = JULY),
            ("an odd settlement", |book| {
                ended(book, 5)[3].settlement = 6_001
            }),
            ("a settlement of 0", |book| {
                sheet_in(book, 7)[9].settlement = 0
            }),
            ("one too large", |book| {
                sheet_in(book, 7)[9].settlement = 1_000_001
            }),
        ],
    );
}

#[test]
fn odd_but_sound() {
    let sound: [Damage; 9] = [
        ("windows without a date", |book| {
            *book = Book::found(2023, LIMITS).expect("fit limits");
            book.windows[0] = vec![2; 45];
        }),
        ("marked without sheets", |book| {
            *book = Book::found(2023, LIMITS).expect("fit limits");
            book.standings[0] = MARKED;
        }),
        ("expanded under 2014", |book| {
            book.edition = 2014;
            book.standings[0] = EXPANDED;
        }),
        ("the other edition", |book| book.edition = 2014),
        ("a date without sheets", |book| {
            *book = Book::found(2023, LIMITS).expect("fit limits");
            book.date = Some([2098, 12, 31]);
        }),
        ("a change beyond the limit", |book| {
            sheet_in(book, 0)[0].settlement = 1_000_000
        }),
        ("an absent contract", |book| sheet_in(book, 0).truncate(1)),
        ("a month before the date", |book| {
            sheet_in(book, 0)[0].month = 2
        }),
        ("I and E at the largest", |book| {
            book.limits[0] = Limits::from_initial(0, 2_000_000)
        }),
    ];
    for (name, change) in sound {
        let mut book = open_book();
        change(&mut book);
        assert!(book.is_sound(), "{name}");
    }
}
