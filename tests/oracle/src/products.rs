//! The product table of the rule.

/// A row of the table; prices and amounts count the product's own unit of price.
#[derive(Debug)]
pub struct Product {
    pub name: &'static str,
    /// Every limit is a multiple of the step.
    pub step: u32,
    /// No initial limit is below the floor.
    pub floor: u32,
    /// How many of the first listed non-spot contracts can trigger.
    pub first: usize,
    /// The calendar months, 1 to 12, for which contracts are listed.
    pub months: &'static [u32],
    /// The one among them that ends the crop year.
    pub last_crop_month: u32,
    pub standard_tick: u32,
    /// None where no mini is offered.
    pub mini_tick: Option<u32>,
}

const GRAIN_MONTHS: &[u32] = &[3, 5, 7, 9, 12];
const BEAN_MONTHS: &[u32] = &[1, 3, 5, 7, 8, 9, 11];
const OIL_AND_MEAL_MONTHS: &[u32] = &[1, 3, 5, 7, 8, 9, 10, 12];
const RICE_MONTHS: &[u32] = &[1, 3, 5, 7, 9, 11];

/// Corn, Chicago Wheat, KC Wheat and Oats differ in their floor, their crop year and their mini alone.
const fn grain(
    name: &'static str,
    floor: u32,
    last_crop_month: u32,
    mini_tick: Option<u32>,
) -> Product {
    Product {
        name,
        step: 40,
        floor,
        first: 5,
        months: GRAIN_MONTHS,
        last_crop_month,
        standard_tick: 2,
        mini_tick,
    }
}

/// Soybean Oil and Soybean Meal have the same numbers in different units.
const fn oil_or_meal(name: &'static str) -> Product {
    Product {
        name,
        step: 50,
        floor: 200,
        first: 8,
        months: OIL_AND_MEAL_MONTHS,
        last_crop_month: 9,
        standard_tick: 1,
        mini_tick: None,
    }
}

const SOYBEANS: Product = Product {
    name: "Soybeans",
    step: 40,
    floor: 400,
    first: 7,
    months: BEAN_MONTHS,
    last_crop_month: 8,
    standard_tick: 2,
    mini_tick: Some(1),
};

const ROUGH_RICE: Product = Product {
    name: "Rough Rice",
    step: 10,
    floor: 100,
    first: 6,
    months: RICE_MONTHS,
    last_crop_month: 7,
    standard_tick: 1,
    mini_tick: None,
};

/// The rows, by product number.
pub static PRODUCTS: [Product; 8] = [
    grain("Corn", 160, 9, Some(1)),
    SOYBEANS,
    oil_or_meal("Soybean Oil"),
    oil_or_meal("Soybean Meal"),
    grain("Chicago Wheat", 240, 5, Some(1)),
    grain("KC Wheat", 240, 5, None),
    grain("Oats", 160, 5, None),
    ROUGH_RICE,
];

/// The row of a product number, if there is such a product.
pub fn product(number: u32) -> Option<&'static Product> {
    PRODUCTS.get(usize::try_from(number).ok()?)
}

impl Product {
    /// The tick of a size (0 standard, 1 mini), if it is offered.
    pub fn tick(&self, size: u32) -> Option<u32> {
        match size {
            0 => Some(self.standard_tick),
            1 => self.mini_tick,
            _ => None,
        }
    }

    /// Whether contracts of this month, counted year × 12 + month − 1, are traded.
    pub fn trades(&self, contract_month: u32) -> bool {
        self.months.contains(&calendar_month(contract_month))
    }

    /// Whether a contract's month is the last of a crop year.
    pub fn ends_crop_year(&self, contract_month: u32) -> bool {
        calendar_month(contract_month) == self.last_crop_month
    }
}

/// 1 to 12, of a month that is counted year × 12 + month − 1.
pub fn calendar_month(contract_month: u32) -> u32 {
    contract_month % 12 + 1
}

#[cfg(test)]
mod tests {
    use super::*;

    #[test]
    fn there_are_eight_products() {
        assert_eq!(product(0).map(|row| row.name), Some("Corn"));
        assert_eq!(product(7).map(|row| row.name), Some("Rough Rice"));
        assert!(product(8).is_none());
        assert!(product(u32::MAX).is_none());
    }

    #[test]
    fn minis_are_of_corn_soybeans_and_chicago_wheat() {
        let minis: Vec<&str> = PRODUCTS
            .iter()
            .filter(|row| row.tick(1).is_some())
            .map(|row| row.name)
            .collect();
        assert_eq!(minis, ["Corn", "Soybeans", "Chicago Wheat"]);
        assert!(PRODUCTS.iter().all(|row| row.tick(2).is_none()));
    }

    #[test]
    fn the_last_contract_months_of_32_bits() {
        let corn = &PRODUCTS[0];
        assert!(corn.trades(4_294_967_294));
        assert!(!corn.trades(4_294_967_295));
        assert!(corn.trades(2024 * 12 + 11));
        assert!(!corn.trades(2024 * 12 + 10));
    }

    #[test]
    fn a_crop_year_ends_in_one_of_the_months() {
        let last = PRODUCTS.each_ref().map(|row| row.last_crop_month);
        assert_eq!(last, [9, 8, 9, 9, 5, 5, 5, 7]);
        for row in &PRODUCTS {
            let months = (2024 * 12..2025 * 12).filter(|&month| row.ends_crop_year(month));
            assert_eq!(months.count(), 1, "{}", row.name);
            assert!(row.months.contains(&row.last_crop_month), "{}", row.name);
        }
    }

    #[test]
    fn floors_are_multiples_of_the_step() {
        for row in &PRODUCTS {
            assert_eq!(row.floor % row.step, 0, "{}", row.name);
        }
    }

    #[test]
    fn months_ascend_within_the_year() {
        for row in &PRODUCTS {
            assert!(
                row.months.windows(2).all(|pair| pair[0] < pair[1]),
                "{}",
                row.name
            );
            assert!(
                row.months.iter().all(|month| (1..=12).contains(month)),
                "{}",
                row.name
            );
        }
    }
}
