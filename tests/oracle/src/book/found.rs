//! Founding: a fresh book from an edition and eight initial limits.

use super::edition::Edition;
use super::{Book, Limits, Standing, GROUP_COUNT, PRODUCT_COUNT};
use crate::amounts;
use crate::products::PRODUCTS;
use crate::refusal::Refusal;

impl Book {
    /// The fresh book, or the first refusal in the order 17, 13.
    pub fn found(edition: u32, limits: [u32; PRODUCT_COUNT]) -> Result<Book, Refusal> {
        if Edition::of(edition).is_none() {
            return Err(Refusal::Edition);
        }
        let mut pairs = PRODUCTS.iter().zip(limits);
        if !pairs.all(|(product, limit)| amounts::fits_founding(product, limit)) {
            return Err(Refusal::Amount);
        }
        Ok(Book {
            edition,
            is_open: false,
            date: None,
            left: 0,
            standings: [Standing::INITIAL; GROUP_COUNT],
            limits: std::array::from_fn(|product| Limits::from_initial(product, limits[product])),
            windows: Default::default(),
            sheets_in: Default::default(),
            last_ended: Default::default(),
        })
    }
}

#[cfg(test)]
mod tests {
    use super::super::edition::EDITIONS;
    use super::*;

    const FLOORS: [u32; 8] = [160, 400, 200, 200, 240, 240, 160, 100];

    /// What both editions say of a limit.
    fn refusal_with(product: usize, limit: u32) -> Option<Refusal> {
        let mut limits = FLOORS;
        limits[product] = limit;
        let [first, second] = EDITIONS.map(|edition| Book::found(edition, limits).err());
        assert_eq!(first, second);
        first
    }

    #[test]
    fn the_floors_found_a_book_under_either_edition() {
        for edition in EDITIONS {
            let book = Book::found(edition, FLOORS).expect("fit limits");
            let expanded: Vec<u32> = book.limits.iter().map(|limits| limits.expanded).collect();
            assert_eq!(expanded, [240, 600, 300, 300, 360, 360, 240, 150]);
            assert_eq!(book.edition, edition);
            assert!(book.is_sound());
        }
    }

    #[test]
    fn books_of_the_editions_differ_in_it_alone() {
        let [mut old, new] = EDITIONS.map(|edition| Book::found(edition, FLOORS).expect("fit"));
        assert_ne!(old, new);
        old.edition = new.edition;
        assert_eq!(old, new);
    }

    #[test]
    fn an_unknown_edition_is_refused_before_unfit_limits() {
        for edition in [0, 1, 2013, 2015, 2022, 2024, u32::MAX] {
            for limits in [FLOORS, [0; 8], [u32::MAX; 8]] {
                let refusal = Book::found(edition, limits).err();
                assert_eq!(refusal, Some(Refusal::Edition), "{edition}");
            }
        }
    }

    #[test]
    fn each_limit_is_judged() {
        for product in 0..8 {
            let step = PRODUCTS[product].step;
            for limit in [
                0,
                FLOORS[product] - step,
                FLOORS[product] + 1,
                1_000_000 + step,
            ] {
                assert_eq!(refusal_with(product, limit), Some(Refusal::Amount));
            }
            for limit in [FLOORS[product] + step, 1_000_000] {
                assert_eq!(refusal_with(product, limit), None);
            }
            assert_eq!(refusal_with(product, u32::MAX), Some(Refusal::Amount));
        }
    }
}
