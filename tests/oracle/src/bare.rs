//! The bare check: an order's price against a limit, on plain numbers.

use crate::amounts;
use crate::prices;
use crate::products;
use crate::refusal::Refusal;
use crate::verdict::{SpanWords, Verdict};

/// The six numbers of a bare check.
#[derive(Clone, Copy, Debug)]
pub struct Order {
    pub product: u32,
    pub size: u32,
    pub settlement: u32,
    pub amount: u32,
    /// Any number but 0 means that the contract is spot.
    pub spot: u32,
    pub price: u32,
}

impl From<[u32; 6]> for Order {
    fn from([product, size, settlement, amount, spot, price]: [u32; 6]) -> Order {
        Order {
            product,
            size,
            settlement,
            amount,
            spot,
            price,
        }
    }
}

/// The verdict, or the first refusal in the order 5, 8, 13; spot or not, each is looked for.
pub fn check(order: &Order) -> Result<Verdict, Refusal> {
    let product = products::product(order.product).ok_or(Refusal::Product)?;
    let tick = product.tick(order.size).ok_or(Refusal::Product)?;
    if !prices::is_price(order.settlement, product.standard_tick) {
        return Err(Refusal::Price);
    }
    if !prices::is_price(order.price, tick) {
        return Err(Refusal::Price);
    }
    if !amounts::fits(product, order.amount) {
        return Err(Refusal::Amount);
    }
    if order.spot != 0 {
        return Ok(Verdict::Free);
    }
    Ok(Verdict::limited(
        order.price,
        order.settlement,
        order.amount,
        tick,
    ))
}

/// What C sees.
pub fn span(order: &Order) -> SpanWords {
    SpanWords::from(check(order))
}

/// The bare check and its ends, for the C test that compares them with the proved ones.
#[no_mangle]
pub extern "C" fn oracle_bare_span(
    product: u32,
    size: u32,
    settlement: u32,
    amount: u32,
    spot: u32,
    price: u32,
) -> SpanWords {
    span(&Order::from([
        product, size, settlement, amount, spot, price,
    ]))
}

#[cfg(test)]
mod tests {
    use super::*;

    const CORN: u32 = 0;
    const KC_WHEAT: u32 = 5;

    /// Product, size, settlement, amount, spot and price.
    fn answer(numbers: [u32; 6]) -> u32 {
        span(&Order::from(numbers)).answer
    }

    #[test]
    fn the_ends_of_the_span_are_within() {
        assert_eq!(answer([CORN, 0, 6_000, 200, 0, 6_200]), 101);
        assert_eq!(answer([CORN, 0, 6_000, 200, 0, 5_800]), 101);
        assert_eq!(answer([CORN, 0, 6_000, 200, 0, 6_202]), 103);
        assert_eq!(answer([CORN, 0, 6_000, 200, 0, 5_798]), 102);
    }

    #[test]
    fn the_lowest_is_that_of_the_size() {
        let lowest = |numbers: [u32; 6]| span(&Order::from(numbers)).lowest;
        assert_eq!(lowest([CORN, 0, 100, 200, 0, 100]), 2);
        assert_eq!(lowest([CORN, 1, 100, 200, 0, 101]), 1);
        assert_eq!(lowest([CORN, 1, 100, 200, 1, 101]), 0);
        assert_eq!(lowest([CORN, 0, 100, 200, 0, 101]), 0);
    }

    #[test]
    fn spot_is_free_once_its_numbers_are_sound() {
        assert_eq!(answer([CORN, 0, 6_000, 200, 7, 9_000]), 100);
        assert_eq!(answer([CORN, 0, 6_000, 200, 7, 9_001]), 8);
        assert_eq!(answer([CORN, 0, 6_000, 201, 7, 9_000]), 13);
    }

    #[test]
    fn a_mini_has_its_own_tick_but_the_standard_settlement() {
        assert_eq!(answer([CORN, 1, 6_000, 200, 0, 6_201]), 103);
        assert_eq!(answer([CORN, 1, 6_001, 200, 0, 6_201]), 8);
    }

    #[test]
    fn refusals_come_in_the_order_5_8_13() {
        assert_eq!(answer([CORN, 0, 6_000, 1, 0, 6_000]), 13);
        assert_eq!(answer([CORN, 0, 6_000, 1, 0, 0]), 8);
        assert_eq!(answer([8, 0, 6_000, 1, 0, 0]), 5);
        assert_eq!(answer([KC_WHEAT, 1, 6_000, 1, 0, 0]), 5);
    }
}
