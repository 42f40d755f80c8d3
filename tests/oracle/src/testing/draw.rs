//! Drawing sound season files.

use super::random::Random;
use crate::dates::Date;
use crate::prices::LARGEST_PRICE;
use crate::products::{Product, PRODUCTS};

pub const DAYS: usize = 45;

/// The words of a season file, which may be damaged one by one.
pub struct Draft {
    pub product: u32,
    pub count: u32,
    pub dates: Vec<u32>,
    pub settlements: Vec<u32>,
}

impl Draft {
    pub fn bytes(&self) -> Vec<u8> {
        let header = [self.product, self.count];
        let words = header.iter().chain(&self.dates).chain(&self.settlements);
        words.flat_map(|word| word.to_le_bytes()).collect()
    }
}

/// Draws season files.
pub struct Drawer {
    pub random: Random,
    /// Every date there is.
    pub calendar: Vec<u32>,
}

impl Drawer {
    pub fn new(seed: u64) -> Drawer {
        let days = std::iter::successors(Some(Date::FIRST), |day| day.next());
        Drawer {
            random: Random::new(seed),
            calendar: days.map(Date::word).collect(),
        }
    }

    /// A file that is answered with limits.
    pub fn sound(&mut self) -> Draft {
        let product = self.random.below(PRODUCTS.len());
        self.sound_of(product)
    }

    pub fn sound_of(&mut self, product: usize) -> Draft {
        Draft {
            product: product as u32,
            count: DAYS as u32,
            dates: self.dates(),
            settlements: self.settlements(&PRODUCTS[product]),
        }
    }

    fn dates(&mut self) -> Vec<u32> {
        if self.random.one_in(2) {
            return self.dates_in_a_row();
        }
        self.dates_far_apart()
    }

    /// At times these are the first or the last days of the calendar.
    fn dates_in_a_row(&mut self) -> Vec<u32> {
        let last = self.calendar.len() - DAYS;
        let drawn = self.random.below(last);
        let first = self.random.pick(&[0, last, drawn, drawn, drawn, drawn]);
        self.calendar[first..first + DAYS].to_vec()
    }

    fn dates_far_apart(&mut self) -> Vec<u32> {
        let stretch = self.calendar.len() / DAYS;
        let mut day = |place| self.calendar[place * stretch + self.random.below(stretch)];
        (0..DAYS).map(&mut day).collect()
    }

    fn settlements(&mut self, product: &Product) -> Vec<u32> {
        let level = 1_000 + self.random.below(20_000) as u32;
        match self.random.below(5) {
            0 => self.near_half(product),
            1 => self.between(product, 1, LARGEST_PRICE),
            2 => self.between(product, 1, 20),
            3 => self.between(product, LARGEST_PRICE - 20, LARGEST_PRICE),
            _ => self.between(product, level, level + 500),
        }
    }

    /// Settlements from `low` to `high`, each drawn for itself.
    fn between(&mut self, product: &Product, low: u32, high: u32) -> Vec<u32> {
        let tick = product.standard_tick;
        let (first, last) = (low.div_ceil(tick), high / tick);
        let choices = (last - first + 1) as usize;
        let mut settlement = |_| (first + self.random.below(choices) as u32) * tick;
        (0..DAYS).map(&mut settlement).collect()
    }

    /// Settlements whose sum is where 7 % of the mean passes half a step, or near it.
    fn near_half(&mut self, product: &Product) -> Vec<u32> {
        let tick = product.standard_tick;
        // That is where 7 × sum passes an odd multiple of 2,250 steps; sevenfold, it hits it.
        let odd = 2 * self.random.below(100) as u32 + 3;
        let multiple = self.random.pick(&[odd, 7 * odd]);
        let half = 2_250 * product.step * multiple / 7 / tick * tick;
        let sum = self.random.pick(&[half - tick, half, half + tick]);
        let base = sum / DAYS as u32 / tick * tick;
        let raised = ((sum - base * DAYS as u32) / tick) as usize;
        let mut settlements = vec![base + tick; raised];
        settlements.resize(DAYS, base);
        settlements
    }
}

#[cfg(test)]
mod tests {
    use super::*;
    use crate::season;

    #[test]
    fn sound_files_are_answered_with_limits() {
        let mut drawer = Drawer::new(1);
        for _ in 0..1_000 {
            let answer = season::answer(&drawer.sound().bytes());
            assert!(!answer.starts_with("refused"), "{answer}");
        }
    }
}
