//! Where contracts settle on a day.

use super::listing::{self, Custom};
use super::moods::{self, Background, Feature, Mood, Size, Which};
use super::pace::Phase;
use super::plots::Plot;
use crate::book::edition::Edition;
use crate::book::groups::group_of;
use crate::book::{Book, Limits, GROUPS, GROUP_COUNT};
use crate::dates::is_spot;
use crate::history::call::SheetCall;
use crate::prices::{is_price, LARGEST_PRICE};
use crate::products::PRODUCTS;
use crate::testing::random::Random;

pub struct Market {
    pub customs: [Custom; 8],
    /// A product that moves by exactly I and E whenever it can, alone in its group.
    pub driver: Option<usize>,
    /// One in so many days has a mood; on the others contracts hardly move.
    pub calm: usize,
    /// Near a change of season, and before a conversion, every group is led; else it has its moods.
    pub phase: Phase,
}

/// A contract on a sheet that is being drafted.
#[derive(Clone, Copy, Debug)]
struct Line {
    product: usize,
    month: u32,
    settlement: u32,
    /// None where the contract is new.
    last: Option<u32>,
    is_spot: bool,
    /// Among the non-spot contracts of the sheet.
    place: usize,
    is_singled_out: bool,
}

impl Market {
    /// The eight sheets of the open day, which the book accepts.
    pub fn draft_all(&self, random: &mut Random, book: &Book) -> Vec<SheetCall> {
        let groups = 0..GROUP_COUNT;
        groups
            .flat_map(|group| self.draft(random, book, group))
            .collect()
    }

    /// The sheets of a group.
    pub fn draft(&self, random: &mut Random, book: &Book, group: usize) -> Vec<SheetCall> {
        let mut lines = Vec::new();
        for &product in GROUPS[group] {
            lines.extend(self.lines(random, book, product));
        }
        let (background, feature) = self.mood(random, book, group);
        for line in &mut lines {
            line.settlement = self.settlement(random, book, line, background);
        }
        match feature {
            Feature::Nothing => {}
            Feature::Scattered(which, size) => {
                let times = random.pick(&[1, 1, 2, 4]);
                (0..times).for_each(|_| self.single_out(random, book, &mut lines, (which, size)));
            }
            Feature::Plotted(plot) => self.act_out(random, book, &mut lines, plot),
        }
        let products = GROUPS[group].iter();
        products.map(|&product| sheet(product, &lines)).collect()
    }

    fn lines(&self, random: &mut Random, book: &Book, product: usize) -> Vec<Line> {
        let (date, left) = book.last_opened().expect("a day is open");
        let months = listing::months_today(random, book, product, &self.customs[product]);
        let spot = months
            .iter()
            .filter(|&&month| is_spot(month, date, left))
            .count();
        let line = |(index, &month): (usize, &u32)| Line {
            product,
            month,
            settlement: 0,
            last: book.last_settlement(product, month),
            is_spot: is_spot(month, date, left),
            place: index.saturating_sub(spot),
            is_singled_out: false,
        };
        months.iter().enumerate().map(line).collect()
    }

    fn mood(&self, random: &mut Random, book: &Book, group: usize) -> Mood {
        let edition = Edition::of(book.edition).expect("the book is sound");
        let level = book.standings[group].level;
        if let Some(mood) = moods::led(random, self.phase, edition, level) {
            return mood;
        }
        if !random.one_in(self.calm) {
            return moods::CALM;
        }
        match self.is_driven(group) && !random.one_in(5) {
            true => moods::on(random, edition, level),
            false => moods::any(random, edition, level),
        }
    }

    fn is_driven(&self, group: usize) -> bool {
        self.driver.is_some_and(|driver| group_of(driver) == group)
    }

    fn settlement(
        &self,
        random: &mut Random,
        book: &Book,
        line: &Line,
        background: Background,
    ) -> u32 {
        let tick = PRODUCTS[line.product].standard_tick;
        let Some(last) = line.last else {
            let limit = book.limit_today(line.product);
            return new_settlement(random, self.customs[line.product].price, limit, tick);
        };
        if line.is_spot && random.one_in(4) {
            return tick * random.between(1, LARGEST_PRICE / tick);
        }
        let limits = book.limits[line.product];
        let largest = match background {
            Background::Still => 0,
            Background::Small => 20.min(limits.initial - tick),
            Background::Full => book.limit_today(line.product),
        };
        let size = tick * random.between(0, largest / tick);
        moved(random, last, size, tick).unwrap_or(last)
    }

    /// Singles out lines of one product of a group, the driver if it has one, and of the others.
    fn act_out(&self, random: &mut Random, book: &Book, lines: &mut [Line], plot: Plot) {
        let group = group_of(lines[0].product);
        let own = match self.driver {
            Some(driver) if self.is_driven(group) => driver,
            _ => random.pick(GROUPS[group]),
        };
        for product_lines in lines.chunk_by_mut(|one, next| one.product == next.product) {
            let picks = match product_lines[0].product == own {
                true => plot.own,
                false => plot.others,
            };
            for &pick in picks {
                self.single_out(random, book, product_lines, pick);
            }
        }
    }

    /// Moves one of the lines that can be singled out by the size of the mood.
    fn single_out(
        &self,
        random: &mut Random,
        book: &Book,
        lines: &mut [Line],
        (which, size): (Which, Size),
    ) {
        let can_be = |line: &Line| !line.is_spot && line.last.is_some() && !line.is_singled_out;
        let fit = |line: &&mut Line| can_be(line) && self.is_meant(line, which);
        let mut choices: Vec<&mut Line> = lines.iter_mut().filter(fit).collect();
        if choices.is_empty() {
            return;
        }
        let drawn = random.below(choices.len());
        let line = &mut *choices[drawn];
        let Some(amount) = amount(random, book, line.product, size) else {
            return;
        };
        let tick = PRODUCTS[line.product].standard_tick;
        let last = line.last.expect("the line has a change");
        if let Some(settlement) = moved(random, last, amount, tick) {
            line.settlement = settlement;
            line.is_singled_out = true;
        }
    }

    fn is_meant(&self, line: &Line, which: Which) -> bool {
        if self.is_driven(group_of(line.product)) && self.driver != Some(line.product) {
            return false;
        }
        let row = &PRODUCTS[line.product];
        let is_first = line.place < row.first;
        let ends_crop_year = row.ends_crop_year(line.month);
        match which {
            Which::Any => true,
            Which::InFirst => is_first,
            Which::PastFirst => !is_first,
            Which::LastOfFirst => line.place + 1 == row.first,
            Which::NextPastFirst => line.place == row.first,
            Which::CropMonth => is_first && ends_crop_year,
            Which::OtherMonth => is_first && !ends_crop_year,
            Which::CropMonthPastFirst => !is_first && ends_crop_year,
        }
    }
}

fn amount(random: &mut Random, book: &Book, product: usize, size: Size) -> Option<u32> {
    let tick = PRODUCTS[product].standard_tick;
    let Limits { initial, expanded } = book.limits[product];
    match size {
        Size::Initial => Some(initial),
        Size::Expanded => Some(expanded),
        Size::BelowInitial => Some(initial - tick),
        Size::BelowExpanded => Some(expanded - tick),
        Size::Between => Some(tick * random.between(initial / tick, expanded / tick)),
        Size::OfAnother => limit_of_another(random, book, product),
    }
}

/// Today's limit of another product of the group, lower than one's own; every limit is on every tick.
fn limit_of_another(random: &mut Random, book: &Book, product: usize) -> Option<u32> {
    let limits = GROUPS[group_of(product)].iter();
    let limits = limits.map(|&other| book.limit_today(other));
    let lower: Vec<u32> = limits
        .filter(|&limit| limit < book.limit_today(product))
        .collect();
    (!lower.is_empty()).then(|| random.pick(&lower))
}

/// Up or down by a size, where the result is a settlement.
pub fn moved(random: &mut Random, last: u32, size: u32, tick: u32) -> Option<u32> {
    let up = (last + size <= LARGEST_PRICE).then_some(last + size);
    let down = (last >= size + tick).then(|| last - size);
    let (first, second) = match random.one_in(2) {
        true => (up, down),
        false => (down, up),
    };
    first.or(second)
}

/// Near the product's price, now and then far from it or at an edge.
fn new_settlement(random: &mut Random, price: u32, limit: u32, tick: u32) -> u32 {
    if random.one_in(12) {
        let half = (price / 2 / tick).max(1);
        let edge = at_an_edge(random, limit, tick);
        return random.pick(&[tick, LARGEST_PRICE, tick * half, edge]);
    }
    let highest = (price + price / 8 + 2 * tick).min(LARGEST_PRICE);
    tick * random.between((price / tick).max(1), highest / tick)
}

/// A settlement from which a limit reaches just to where prices begin or end; the first price, where there is none.
pub fn at_an_edge(random: &mut Random, limit: u32, tick: u32) -> u32 {
    let from_top = LARGEST_PRICE.saturating_sub(limit);
    match random.pick(&[limit, limit + tick, from_top]) {
        edge if is_price(edge, tick) => edge,
        _ => tick,
    }
}

fn sheet(product: usize, lines: &[Line]) -> SheetCall {
    let own = || lines.iter().filter(move |line| line.product == product);
    SheetCall {
        product: product as u32,
        months: own().map(|line| line.month).collect(),
        settlements: own().map(|line| line.settlement).collect(),
    }
}
