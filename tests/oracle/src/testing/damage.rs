//! Damaging season files, and drawing garbage.

use super::draw::{Draft, Drawer, DAYS};
use crate::prices::LARGEST_PRICE;
use crate::products;

/// A fault that leaves the shape of the file alone.
#[derive(Clone, Copy, Debug)]
pub enum WordFault {
    Product,
    FalseDate,
    DateOrder,
    Settlement,
}

pub const WORD_FAULTS: [WordFault; 4] = [
    WordFault::Product,
    WordFault::FalseDate,
    WordFault::DateOrder,
    WordFault::Settlement,
];

/// A fault of the file's shape.
#[derive(Clone, Copy, Debug)]
pub enum ShapeFault {
    /// The count is not that of the entries.
    Count,
    /// Count and entries agree, but are not 45.
    Days,
    Cut,
    Longer,
    /// Longer by megabytes.
    FarLonger,
}

pub const SHAPE_FAULTS: [ShapeFault; 5] = [
    ShapeFault::Count,
    ShapeFault::Days,
    ShapeFault::Cut,
    ShapeFault::Longer,
    ShapeFault::FarLonger,
];

impl Drawer {
    pub fn damage(&mut self, draft: &mut Draft, fault: WordFault) {
        match fault {
            WordFault::Product => draft.product = self.no_product(),
            WordFault::FalseDate => self.falsify(&mut draft.dates),
            WordFault::DateOrder => self.disorder(&mut draft.dates),
            WordFault::Settlement => self.spoil(draft),
        }
    }

    fn no_product(&mut self) -> u32 {
        let drawn = self.random.word().max(8);
        self.random
            .pick(&[8, 9, 1 << 8, 1 << 16, 1 << 31, u32::MAX, drawn])
    }

    /// Puts in a false date, mostly one that does not break the ascent.
    fn falsify(&mut self, dates: &mut Vec<u32>) {
        let place = self.random.below(DAYS);
        let (year, month) = (dates[place] / 10_000, dates[place] / 100);
        match self.random.below(5) {
            0 => *dates = self.month_overrun(),
            1 => dates[0] = self.random.pick(&[0, 101, 19990101, 19991231]),
            2 => dates[DAYS - 1] = self.random.pick(&[20990101, 21000228, 21000229, u32::MAX]),
            3 => dates[place] = month * 100 + self.random.pick(&[0, 32, 99]),
            _ => dates[place] = year * 10_000 + self.random.pick(&[1, 1301, 9901]),
        }
    }

    /// Days in a row, with one past the end of a month before the next month begins.
    fn month_overrun(&mut self) -> Vec<u32> {
        let half = DAYS / 2;
        let mut next = half + self.random.below(self.calendar.len() - 2 * half - 31);
        while self.calendar[next] % 100 != 1 {
            next += 1;
        }
        let mut dates = self.calendar[next - half..next].to_vec();
        dates.push(self.calendar[next - 1] + 1);
        dates.extend(&self.calendar[next..next + half]);
        dates
    }

    /// Makes two neighbours equal, or swaps them.
    fn disorder(&mut self, dates: &mut [u32]) {
        let place = self.random.pick(&[0, DAYS / 2, DAYS - 2]);
        if self.random.one_in(2) {
            dates[place] = dates[place + 1];
            return;
        }
        dates.swap(place, place + 1);
    }

    /// Puts in a settlement that is none for the product: out of range, or odd where the tick is 2.
    fn spoil(&mut self, draft: &mut Draft) {
        let drawn = self.random.below(DAYS);
        let place = self.random.pick(&[0, drawn, DAYS - 1]);
        let above = LARGEST_PRICE + 1 + self.random.below(4) as u32;
        let odd = draft.settlements[place] | 1;
        let is_every_number_on_tick =
            products::product(draft.product).is_none_or(|product| product.standard_tick == 1);
        let off_tick = if is_every_number_on_tick { above } else { odd };
        draft.settlements[place] =
            self.random
                .pick(&[0, off_tick, off_tick, above, above, u32::MAX]);
    }

    /// The bytes of a file with a fault of shape.
    pub fn misshape(&mut self, mut draft: Draft, fault: ShapeFault) -> Vec<u8> {
        match fault {
            ShapeFault::Count => draft.count = self.other_count(),
            ShapeFault::Days => self.other_days(&mut draft),
            ShapeFault::Cut => return self.cut(&draft),
            ShapeFault::Longer => return self.lengthen(&draft, 1, 400),
            ShapeFault::FarLonger => return self.lengthen(&draft, 1 << 20, 1 << 22),
        }
        draft.bytes()
    }

    /// At times a count whose low bits are those of 45.
    fn other_count(&mut self) -> u32 {
        let drawn = self.random.word() | 64;
        let bit = self.random.pick(&[8, 16, 29, 30, 31]);
        let alike = 45 + (1 << bit);
        self.random
            .pick(&[0, 44, 46, u32::MAX, drawn, alike, alike, alike])
    }

    fn other_days(&mut self, draft: &mut Draft) {
        let drawn = self.random.below(DAYS);
        let days = self.random.pick(&[0, 1, drawn, 44, 46, 46, 90]);
        let settlement = draft.settlements[0];
        draft.count = days as u32;
        draft.dates = self.calendar[..days].to_vec();
        draft.settlements.resize(days, settlement);
    }

    fn cut(&mut self, draft: &Draft) -> Vec<u8> {
        let mut bytes = draft.bytes();
        let drawn = self.random.below(bytes.len());
        let length = self.random.pick(&[0, 7, 8, drawn, drawn, 364, 366, 367]);
        bytes.truncate(length);
        bytes
    }

    fn lengthen(&mut self, draft: &Draft, least: usize, most: usize) -> Vec<u8> {
        let drawn = least + self.random.below(most - least);
        let more = self.random.pick(&[least, drawn, drawn]);
        let mut bytes = draft.bytes();
        bytes.extend(self.noise(more));
        bytes
    }

    fn noise(&mut self, length: usize) -> Vec<u8> {
        (0..length).map(|_| self.random.bits() as u8).collect()
    }

    pub fn garbage(&mut self) -> Vec<u8> {
        let length = self.random.below(800);
        self.noise(length)
    }

    /// A file of the right shape in which most words are random.
    pub fn random_words(&mut self) -> Vec<u8> {
        let mut draft = self.sound();
        draft.product = self.random.below(12) as u32;
        if self.random.one_in(2) {
            draft.dates = self.words();
        }
        draft.settlements = self.words();
        draft.bytes()
    }

    fn words(&mut self) -> Vec<u32> {
        (0..DAYS).map(|_| self.random.word()).collect()
    }
}

#[cfg(test)]
mod tests {
    use super::*;
    use crate::products::PRODUCTS;
    use crate::season;

    /// By a match, so that no fault can be left out.
    fn number(fault: WordFault) -> u32 {
        match fault {
            WordFault::Product => 5,
            WordFault::FalseDate | WordFault::DateOrder => 3,
            WordFault::Settlement => 8,
        }
    }

    fn assert_refused(file: &[u8], number: u32, what: &str) {
        assert_eq!(
            season::answer(file),
            format!("refused {number}\n"),
            "{what}"
        );
    }

    #[test]
    fn word_faults_are_refused_by_their_numbers_for_every_product() {
        let mut drawer = Drawer::new(2);
        for fault in WORD_FAULTS {
            for product in 0..PRODUCTS.len() {
                for _ in 0..100 {
                    let mut draft = drawer.sound_of(product);
                    drawer.damage(&mut draft, fault);
                    assert_refused(
                        &draft.bytes(),
                        number(fault),
                        &format!("{fault:?} of product {product}"),
                    );
                }
            }
        }
    }

    #[test]
    fn shape_faults_are_refused_for_every_product() {
        let mut drawer = Drawer::new(3);
        for fault in SHAPE_FAULTS {
            for product in 0..PRODUCTS.len() {
                for _ in 0..10 {
                    let draft = drawer.sound_of(product);
                    let file = drawer.misshape(draft, fault);
                    assert_refused(&file, 6, &format!("{fault:?} of product {product}"));
                }
            }
        }
    }

    /// Whether a spoilt file has a settlement that is wrong by its tick alone.
    fn is_off_tick(draft: &Draft) -> bool {
        let in_range = draft
            .settlements
            .iter()
            .all(|s| (1..=LARGEST_PRICE).contains(s));
        in_range && draft.settlements.iter().any(|s| s % 2 == 1)
    }

    #[test]
    fn settlements_off_their_tick_are_drawn_where_the_tick_is_2() {
        let mut drawer = Drawer::new(4);
        for (product, row) in PRODUCTS.iter().enumerate() {
            let mut off_tick = 0;
            for _ in 0..100 {
                let mut draft = drawer.sound_of(product);
                drawer.damage(&mut draft, WordFault::Settlement);
                off_tick += usize::from(is_off_tick(&draft));
            }
            assert_eq!(off_tick > 0, row.standard_tick == 2, "product {product}");
        }
    }
}
