//! Wrong values of a word: at the edges of its field, near its own, and its neighbours'.

use oracle::amounts::{LARGEST_FOUNDING, LARGEST_LIMIT};
use oracle::book::edition::EDITIONS;
use oracle::image::{Image, WORDS};
use oracle::prices::LARGEST_PRICE;
use oracle::products::{Product, PRODUCTS};
use oracle::testing::history::stray::FALSE_EDITIONS;

use crate::fields::Field;

/// The last months of 32 bits: an April, which nothing trades, and a March, which everything does.
const LAST_MONTHS: [u32; 2] = [u32::MAX, u32::MAX - 1];

/// Values other than the word's own.
pub fn wrong_values(image: &Image, word: usize) -> Vec<u32> {
    let own = image.words()[word];
    let mut values = near(own);
    values.extend(neighbours(image, word));
    values.extend(of_field(image, word, own));
    values.retain(|&value| value != own);
    values.sort();
    values.dedup();
    values
}

/// Small, large, off by one, and alike in some of the bits.
fn near(own: u32) -> Vec<u32> {
    vec![
        0,
        1,
        2,
        own.wrapping_sub(1),
        own.wrapping_add(1),
        own.wrapping_add(1 << 16),
        own ^ 1 << 31,
        u32::MAX,
    ]
}

/// The words beside it, and those of the pairs beside its own.
fn neighbours(image: &Image, word: usize) -> impl Iterator<Item = u32> + '_ {
    let places = [1, 2].into_iter().flat_map(move |far| {
        let before = word.checked_sub(far);
        let after = Some(word + far).filter(|&after| after < WORDS);
        before.into_iter().chain(after)
    });
    places.map(|place| image.words()[place])
}

fn of_field(image: &Image, word: usize, own: u32) -> Vec<u32> {
    let field = Field::of(word);
    let row = field.product().map(|product| &PRODUCTS[product]);
    match (field, row) {
        (Field::Edition, _) => [&EDITIONS[..], &FALSE_EDITIONS].concat(),
        (Field::Year, _) => vec![1999, 2000, 2001, 2098, 2099, 2100, own.wrapping_add(4)],
        (Field::Month, _) => vec![2, 4, 11, 12, 13],
        (Field::Day, _) => vec![28, 29, 30, 31, 32],
        (Field::Left, _) => (3..=31).collect(),
        (Field::Initial(_) | Field::Expanded(_), Some(row)) => amounts(row, own),
        (Field::WindowCount(_), _) => vec![44, 45, 46],
        (Field::SheetCount(..), _) => vec![15, 16, 17, 33],
        (Field::WindowSettlement(..) | Field::ContractSettlement(..), Some(row)) => {
            settlements(row, own)
        }
        (Field::ContractMonth(..), _) => months(image, own),
        _ => vec![3, 256, 1 << 24],
    }
}

/// One step off, and on either side of the ends.
fn amounts(row: &Product, own: u32) -> Vec<u32> {
    vec![
        own.wrapping_sub(row.step),
        own.wrapping_add(row.step),
        row.floor - row.step,
        row.floor,
        LARGEST_FOUNDING,
        LARGEST_LIMIT,
        LARGEST_LIMIT + row.step,
    ]
}

/// One tick off, and on either side of the ends.
fn settlements(row: &Product, own: u32) -> Vec<u32> {
    let tick = row.standard_tick;
    vec![
        own.wrapping_sub(tick),
        own.wrapping_add(tick),
        LARGEST_PRICE - 1,
        LARGEST_PRICE,
        LARGEST_PRICE + tick,
    ]
}

/// A year off, the date's own, and the last of 32 bits.
fn months(image: &Image, own: u32) -> Vec<u32> {
    let year = image.year.wrapping_mul(12);
    let today = year.wrapping_add(image.month).wrapping_sub(1);
    let mut months = vec![own.wrapping_sub(12), own.wrapping_add(12), today];
    months.extend(LAST_MONTHS);
    months
}

#[cfg(test)]
mod tests {
    use super::*;
    use crate::bases::bases;

    #[test]
    fn every_word_has_several_and_none_is_its_own() {
        for base in bases() {
            for word in 0..WORDS {
                let values = wrong_values(&base.image, word);
                assert!(values.len() >= 7, "{:?}", Field::of(word));
                assert!(!values.contains(&base.image.words()[word]));
            }
        }
    }
}
