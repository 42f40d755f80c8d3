//! The range and the tick of prices and settlements.

/// The largest price and the largest settlement; the smallest is 1.
pub const LARGEST_PRICE: u32 = 1_000_000;

/// Whether a price or settlement is in range and on its tick.
pub fn is_price(price: u32, tick: u32) -> bool {
    (1..=LARGEST_PRICE).contains(&price) && price.is_multiple_of(tick)
}

#[cfg(test)]
mod tests {
    use super::*;

    #[test]
    fn the_range_includes_its_ends() {
        assert!(!is_price(0, 1));
        assert!(is_price(1, 1));
        assert!(is_price(1_000_000, 1));
        assert!(!is_price(1_000_001, 1));
        assert!(!is_price(u32::MAX, 1));
    }

    #[test]
    fn a_tick_of_two_has_even_prices_alone() {
        assert!(!is_price(1, 2));
        assert!(is_price(2, 2));
        assert!(!is_price(999_999, 2));
        assert!(is_price(1_000_000, 2));
        assert!(!is_price(1_000_002, 2));
    }
}
