//! Limits: the expanded from the initial, the season's from 45 settlements, and which fit.

use crate::products::Product;

/// No limit is above this.
pub const LARGEST_LIMIT: u32 = 2_000_000;

/// No founding limit is above this.
pub const LARGEST_FOUNDING: u32 = 1_000_000;

/// How many settlements make a season limit.
pub const SEASON_DAYS: u32 = 45;

/// E: the initial limit times 3/2, rounded up to a step, at most the largest limit.
pub fn expanded(product: &Product, initial: u32) -> u32 {
    let halves = 3 * u64::from(initial);
    let step = u64::from(product.step);
    let rounded = halves.div_ceil(2 * step) * step;
    rounded.min(u64::from(LARGEST_LIMIT)) as u32
}

/// I of a season: 7 % of the mean of 45 settlements, to the nearest step, at least the floor.
pub fn season_limit(product: &Product, sum: u64) -> u32 {
    let step = u64::from(product.step);
    // 7 % of the mean is 7 × sum / 4,500; half a step more than that makes a half go up.
    let steps = (7 * sum + 2_250 * step) / (4_500 * step);
    let limit = step * steps;
    limit.max(u64::from(product.floor)) as u32
}

/// Whether an amount can be a limit of the product.
pub fn fits(product: &Product, amount: u32) -> bool {
    let in_range = (product.floor..=LARGEST_LIMIT).contains(&amount);
    in_range && amount.is_multiple_of(product.step)
}

/// Whether an amount can be the initial limit of the product in a new book.
pub fn fits_founding(product: &Product, amount: u32) -> bool {
    fits(product, amount) && amount <= LARGEST_FOUNDING
}

#[cfg(test)]
mod tests {
    use super::*;
    use crate::products::PRODUCTS;

    const CORN: &Product = &PRODUCTS[0];

    /// The season's I and E when every settlement is the same.
    fn season_of_equal(product: usize, settlement: u64) -> (u32, u32) {
        let row = &PRODUCTS[product];
        let initial = season_limit(row, u64::from(SEASON_DAYS) * settlement);
        (initial, expanded(row, initial))
    }

    #[test]
    fn marked_a_corn_200_expands_to_320() {
        assert_eq!(expanded(CORN, 200), 320);
    }

    #[test]
    fn marked_b_corn_560_expands_to_840() {
        assert_eq!(expanded(CORN, 560), 840);
    }

    #[test]
    fn marked_c_corn_at_6000() {
        assert_eq!(season_of_equal(0, 6_000), (440, 680));
    }

    #[test]
    fn marked_d_oats_at_1920() {
        assert_eq!(season_of_equal(6, 1_920), (160, 240));
    }

    #[test]
    fn marked_e_oil_at_5000() {
        assert_eq!(season_of_equal(2, 5_000), (350, 550));
    }

    #[test]
    fn marked_f_meal_at_4000() {
        assert_eq!(season_of_equal(3, 4_000), (300, 450));
    }

    #[test]
    fn marked_g_rice_at_3000() {
        assert_eq!(season_of_equal(7, 3_000), (210, 320));
    }

    #[test]
    fn expanded_stops_at_the_largest_limit() {
        assert_eq!(expanded(CORN, 1_333_320), 2_000_000);
        assert_eq!(expanded(CORN, 1_333_280), 1_999_920);
        assert_eq!(expanded(CORN, 2_000_000), 2_000_000);
    }

    #[test]
    fn half_a_step_goes_up_and_less_goes_down() {
        assert_eq!(season_limit(CORN, 270_000), 440);
        assert_eq!(season_limit(CORN, 269_999), 400);
    }

    #[test]
    fn the_floor_holds() {
        assert_eq!(season_of_equal(1, 2), (400, 600));
    }

    #[test]
    fn the_largest_settlements() {
        assert_eq!(season_of_equal(0, 1_000_000), (70_000, 105_000));
    }

    #[test]
    fn amounts_fit_from_the_floor_to_the_largest_on_the_step() {
        for amount in [160, 200, 2_000_000] {
            assert!(fits(CORN, amount), "{amount}");
        }
        for amount in [0, 120, 159, 161, 1_999_999, 2_000_040, u32::MAX] {
            assert!(!fits(CORN, amount), "{amount}");
        }
    }
}
