//! What conversions reached: refusals in order, and the books that were carried or left unchanged.

use super::{Coverage, Seen};
use crate::book::edition::EDITIONS;
use crate::book::window::LARGEST_WINDOW;
use crate::book::{Book, Level, GROUP_COUNT};

const WANTED: [&str; 13] = [
    "convert: refused 2 with one to seven sheets in",
    "convert: refused 2 with all sheets in",
    "convert: refused 2 under 2023 with an expanded group",
    "convert: 2 over 18",
    "convert: refused 18, several groups expanded",
    "convert: carried with a full window",
    "convert: carried with 1 to 44 in a window",
    "convert: carried with limits of a season",
    "convert: carried after a refusal with 2",
    "convert: carried after a refusal with 18",
    "convert: accepted under 2023 with every group at the initial level",
    "convert: again, no day opened since the book was carried",
    "convert: again, days after the book was carried",
];

/// Of each edition.
const OF_EDITION: [&str; 4] = [
    "refused 2",
    "refused 2 on a first day",
    "accepted before the first opening",
    "accepted after an end",
];

/// How a group stands in a book under 2023, which is left unchanged.
const STANDINGS: [&str; 2] = ["expanded", "marked"];

pub fn wanted() -> Vec<String> {
    let fixed = WANTED.iter().map(|what| what.to_string());
    let editions = EDITIONS
        .into_iter()
        .flat_map(|edition| OF_EDITION.map(|what| edition_key(edition, what)));
    let groups = (0..GROUP_COUNT).flat_map(|group| {
        let unchanged = STANDINGS.map(|standing| unchanged_key(group, standing));
        [expanded_key(group), reverted_key(group)]
            .into_iter()
            .chain(unchanged)
    });
    fixed.chain(editions).chain(groups).collect()
}

fn edition_key(edition: u32, what: &str) -> String {
    format!("convert: {what} under {edition}")
}

fn expanded_key(group: usize) -> String {
    format!("convert: refused 18, group {group} alone expanded")
}

fn reverted_key(group: usize) -> String {
    format!("convert: carried with group {group} reverted at the last end")
}

fn unchanged_key(group: usize, standing: &str) -> String {
    format!("convert: accepted under 2023 with group {group} {standing}")
}

pub fn observe(coverage: &mut Coverage, seen: &Seen) {
    let book = seen.before;
    match seen.refusal() {
        Some(refusal) => observe_refused(coverage, book, refusal),
        None => observe_converted(coverage, book),
    }
}

fn expanded_groups(book: &Book) -> Vec<usize> {
    let groups = 0..GROUP_COUNT;
    groups
        .filter(|&group| book.standings[group].level == Level::Expanded)
        .collect()
}

fn observe_refused(coverage: &mut Coverage, book: &Book, refusal: u32) {
    let expanded = expanded_groups(book);
    let is_of_2014 = book.edition == 2014;
    let rows = [(2, book.is_open), (18, is_of_2014 && !expanded.is_empty())];
    coverage.count_over("convert", refusal, &rows);
    if refusal == 2 {
        return observe_open(coverage, book);
    }
    coverage.count(match expanded.as_slice() {
        [alone] => expanded_key(*alone),
        _ => "convert: refused 18, several groups expanded".to_string(),
    });
}

fn observe_open(coverage: &mut Coverage, book: &Book) {
    coverage.count(edition_key(book.edition, "refused 2"));
    let is_first = book.last_ended[0].is_none();
    coverage.count_if(
        is_first,
        &edition_key(book.edition, "refused 2 on a first day"),
    );
    let sheets_in = book.sheets_in.iter().flatten().count();
    coverage.count_if(
        (1..8).contains(&sheets_in),
        "convert: refused 2 with one to seven sheets in",
    );
    coverage.count_if(sheets_in == 8, "convert: refused 2 with all sheets in");
    coverage.count_if(
        book.edition == 2023 && book.has_expanded_group(),
        "convert: refused 2 under 2023 with an expanded group",
    );
}

fn observe_converted(coverage: &mut Coverage, book: &Book) {
    let what = match book.date {
        None => "accepted before the first opening",
        Some(_) => "accepted after an end",
    };
    coverage.count(edition_key(book.edition, what));
    match book.edition {
        2014 => observe_carried(coverage, book),
        _ => observe_unchanged(coverage, book),
    }
}

fn observe_carried(coverage: &mut Coverage, book: &Book) {
    let past = coverage.past.clone();
    let holds = |count: usize| book.windows.iter().any(|window| window.len() == count);
    let facts = [
        (holds(LARGEST_WINDOW), "with a full window"),
        ((1..LARGEST_WINDOW).any(holds), "with 1 to 44 in a window"),
        (past.has_season_limits, "with limits of a season"),
        (past.refused.contains(&2), "after a refusal with 2"),
        (past.refused.contains(&18), "after a refusal with 18"),
    ];
    for (happened, what) in facts {
        coverage.count_if(happened, &format!("convert: carried {what}"));
    }
    for group in (0..GROUP_COUNT).filter(|&group| past.reverted[group]) {
        coverage.count(reverted_key(group));
    }
}

fn observe_unchanged(coverage: &mut Coverage, book: &Book) {
    let since = coverage.past.carried;
    let facts = [
        (
            !book.has_expanded_group(),
            "accepted under 2023 with every group at the initial level",
        ),
        (
            since.is_some_and(|since| since.openings == 0),
            "again, no day opened since the book was carried",
        ),
        (
            since.is_some_and(|since| since.ends > 0),
            "again, days after the book was carried",
        ),
    ];
    for (happened, what) in facts {
        coverage.count_if(happened, &format!("convert: {what}"));
    }
    for group in expanded_groups(book) {
        let is_marked = book.standings[group].marked;
        coverage.count(unchanged_key(group, STANDINGS[usize::from(is_marked)]));
    }
}
