//! What foundings reached: editions, and refusals in order.

use super::{refusal, Coverage};
use crate::amounts::fits_founding;
use crate::book::edition::{Edition, EDITIONS};
use crate::book::Book;
use crate::history::call::FoundCall;
use crate::products::PRODUCTS;
use crate::testing::history::stray::FALSE_EDITIONS;

const WANTED: [&str; 6] = [
    "found: founded",
    "found: founded afresh",
    "found: founded under 2014 over a book that was carried",
    "found: founded under 2023 over a book that was carried",
    "found: refused 13 without a book",
    "found: refused 13 with a book",
];

/// What there was before: no book, or one under an edition.
const BEFORE: [Option<u32>; 3] = [None, Some(2014), Some(2023)];

pub fn wanted() -> Vec<String> {
    let founded = EDITIONS.map(|edition| BEFORE.map(|before| founded_key(edition, before)));
    let unfit = EDITIONS.map(|edition| BEFORE.map(|before| unfit_key(edition, before)));
    let unknown =
        FALSE_EDITIONS.map(|edition| [false, true].map(|is_unfit| unknown_key(edition, is_unfit)));
    let fixed = WANTED.iter().map(|what| what.to_string());
    fixed
        .chain(founded.into_iter().flatten())
        .chain(unfit.into_iter().flatten())
        .chain(unknown.into_iter().flatten())
        .chain(BEFORE.map(unknown_before_key))
        .collect()
}

fn over(before: Option<u32>) -> String {
    match before {
        None => "without a book".to_string(),
        Some(edition) => format!("over a book under {edition}"),
    }
}

fn founded_key(edition: u32, before: Option<u32>) -> String {
    format!("found: founded under {edition} {}", over(before))
}

fn unfit_key(edition: u32, before: Option<u32>) -> String {
    format!("found: refused 13 under {edition} {}", over(before))
}

fn unknown_key(edition: u32, is_unfit: bool) -> String {
    let later = if is_unfit { " over 13" } else { "" };
    format!("found: refused 17 for {edition}{later}")
}

fn unknown_before_key(before: Option<u32>) -> String {
    format!("found: refused 17 {}", over(before))
}

pub fn observe(coverage: &mut Coverage, call: &FoundCall, before: Option<&Book>, answer: &str) {
    let edition = before.map(|book| book.edition);
    let Some(refusal) = refusal(answer) else {
        coverage.count(match before {
            None => "found: founded",
            Some(_) => "found: founded afresh",
        });
        if coverage.past.carried.is_some() {
            coverage.count(format!(
                "found: founded under {} over a book that was carried",
                call.edition
            ));
        }
        return coverage.count(founded_key(call.edition, edition));
    };
    let mut limits = PRODUCTS.iter().zip(call.limits);
    let is_unfit = limits.any(|(row, limit)| !fits_founding(row, limit));
    let is_unknown = Edition::of(call.edition).is_none();
    coverage.count_over("found", refusal, &[(17, is_unknown), (13, is_unfit)]);
    if is_unknown {
        coverage.count(unknown_before_key(edition));
        return coverage.count(unknown_key(call.edition, is_unfit));
    }
    coverage.count(match before {
        None => "found: refused 13 without a book",
        Some(_) => "found: refused 13 with a book",
    });
    coverage.count(unfit_key(call.edition, edition));
}
