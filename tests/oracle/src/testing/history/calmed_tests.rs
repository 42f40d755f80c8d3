//! Two lists that differ in one product's sheets alone: who is the wider for its moves.

use std::cmp::Ordering;

use super::compare::lines;
use super::side_by_side::tests::pairs;
use super::side_by_side::Pair;
use crate::book::{Book, GROUPS, PRODUCT_COUNT};
use crate::history::answer;
use crate::history::call::{self, Call, SheetCall};

/// So many lists of each product have to be parted, so that no single draw decides whether they are.
const SEVERAL: usize = 3;

/// The sheet without a change.
fn calmed(mut sheet: SheetCall, book: &Book) -> SheetCall {
    for (settlement, &month) in sheet.settlements.iter_mut().zip(&sheet.months) {
        let last = book.last_settlement(sheet.product as usize, month);
        *settlement = last.unwrap_or(*settlement);
    }
    sheet
}

fn limits_today(book: &Option<Book>) -> [u32; PRODUCT_COUNT] {
    let book = book.as_ref().expect("a book was founded");
    std::array::from_fn(|product| book.limit_today(product))
}

/// The limits of the first side, and of a book to which one product's sheets came without changes, after the end that
/// first parts them. A season can part them too, by the settlements that it collected.
fn parted(pair: &Pair, product: usize) -> Option<[[u32; PRODUCT_COUNT]; 2]> {
    let (mut moved, mut calm) = (None, None);
    for line in lines(&pair.sides[0].text) {
        let call = call::parse(line).expect("every line is a call");
        // Calmed, a refused sheet could be filed.
        if answer::answer(&mut moved, &call).starts_with("refused") {
            continue;
        }
        let is_end = call == Call::End;
        let call = match (call, &calm) {
            (Call::Sheet(sheet), Some(book)) if sheet.product as usize == product => {
                Call::Sheet(calmed(sheet, book))
            }
            (call, _) => call,
        };
        answer::answer(&mut calm, &call);
        let limits = [&moved, &calm].map(limits_today);
        if limits[0] != limits[1] {
            return is_end.then_some(limits);
        }
    }
    None
}

#[test]
fn a_product_that_moves_widens_its_group_and_no_other() {
    for (group, products) in GROUPS.iter().enumerate() {
        for &product in *products {
            let lists = pairs(group).iter().map(|answered| &answered.pair);
            let parted = lists.filter_map(|pair| parted(pair, product));
            let parted: Vec<[[u32; PRODUCT_COUNT]; 2]> = parted.collect();
            assert!(parted.len() >= SEVERAL, "product {product}");
            for [moved, calm] in parted {
                for other in 0..PRODUCT_COUNT {
                    let due = match products.contains(&other) {
                        true => Ordering::Greater,
                        false => Ordering::Equal,
                    };
                    assert_eq!(moved[other].cmp(&calm[other]), due, "{other} by {product}");
                }
            }
        }
    }
}
