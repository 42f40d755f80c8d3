//! Faults of a sheet, alone or several together, at its first or its last entries.

use super::market::moved;
use crate::book::sheet::LARGEST_SHEET;
use crate::book::{Book, Limits};
use crate::dates::is_spot;
use crate::history::call::SheetCall;
use crate::prices::LARGEST_PRICE;
use crate::products::PRODUCTS;
use crate::testing::random::Random;

/// Of the rows 10, 8, 7, 9, 6 and 5, in the order in which they can be put in.
#[derive(Clone, Copy, Debug, PartialEq, Eq, PartialOrd, Ord)]
enum Fault {
    Beyond,
    Price,
    Month,
    Absent,
    Shape,
    Product,
}

const OF_ENTRIES: [Fault; 4] = [Fault::Beyond, Fault::Price, Fault::Month, Fault::Absent];

/// The end of the sheet at which a fault is put in.
#[derive(Clone, Copy, Debug, PartialEq, Eq)]
enum Place {
    Front,
    Back,
}

/// A sheet that the book accepts, and the book that would.
struct Spoiler<'a> {
    random: &'a mut Random,
    book: &'a Book,
    call: SheetCall,
}

/// The sheet with one to three faults.
pub fn spoil(random: &mut Random, book: &Book, good: &SheetCall) -> SheetCall {
    let faults = choose(random);
    let mut spoiler = Spoiler {
        random,
        book,
        call: good.clone(),
    };
    for (fault, place) in faults {
        spoiler.put_in(fault, place);
    }
    spoiler.call
}

/// The sheet with a contract that moved beyond I, though not beyond E.
pub fn widen(random: &mut Random, book: &Book, good: &SheetCall) -> SheetCall {
    let product = good.product as usize;
    let Limits { initial, expanded } = book.limits[product];
    let least = initial + PRODUCTS[product].standard_tick;
    let size = random.pick(&[least, expanded]);
    let place = random.pick(&[Place::Front, Place::Back]);
    let mut spoiler = Spoiler {
        random,
        book,
        call: good.clone(),
    };
    spoiler.move_by(place, size);
    spoiler.call
}

fn choose(random: &mut Random) -> Vec<(Fault, Place)> {
    let ends = random.pick(&[[Place::Front, Place::Back], [Place::Back, Place::Front]]);
    let first = random.pick(&OF_ENTRIES);
    let mut faults = vec![(first, ends[0])];
    if random.one_in(6) {
        faults.clear();
    }
    if random.one_in(2) {
        faults.push((random.pick(&OF_ENTRIES), ends[1]));
    }
    if faults.is_empty() || random.one_in(6) {
        let others = random.pick(&[
            [Fault::Shape, Fault::Shape],
            [Fault::Shape, Fault::Product],
            [Fault::Product, Fault::Product],
        ]);
        faults.extend(others.map(|other| (other, ends[0])));
        faults.dedup();
    }
    faults.sort_by_key(|(fault, _)| *fault);
    faults
}

impl Spoiler<'_> {
    fn put_in(&mut self, fault: Fault, place: Place) {
        let is_empty = self.call.months.is_empty() || self.call.settlements.is_empty();
        if is_empty && fault != Fault::Product {
            return;
        }
        match fault {
            Fault::Beyond => self.go_beyond(place),
            Fault::Price => self.misprice(place),
            Fault::Month => self.falsify_month(place),
            Fault::Absent => self.leave_out(place),
            Fault::Shape => self.misshape(),
            Fault::Product => self.call.product = self.no_product(),
        }
    }

    fn no_product(&mut self) -> u32 {
        let drawn = self.random.word().max(8);
        self.random
            .pick(&[8, 8, 9, 1 << 8, 1 << 16, 1 << 31, u32::MAX, drawn])
    }

    /// The places of contracts that are not spot and were on the last ended sheet.
    fn due(&self) -> Vec<usize> {
        let (date, left) = self.book.last_opened().expect("a day is open");
        let product = self.call.product as usize;
        let is_due = |&place: &usize| {
            let month = self.call.months[place];
            let was_listed = self.book.last_settlement(product, month).is_some();
            was_listed && !is_spot(month, date, left)
        };
        (0..self.call.months.len()).filter(is_due).collect()
    }

    fn due_at(&self, place: Place) -> Option<usize> {
        match place {
            Place::Front => self.due().first().copied(),
            Place::Back => self.due().last().copied(),
        }
    }

    fn index(&self, place: Place, length: usize) -> usize {
        match place {
            Place::Front => 0,
            Place::Back => length - 1,
        }
    }

    /// Row 10, mostly by one tick.
    fn go_beyond(&mut self, place: Place) {
        let product = self.call.product as usize;
        let tick = PRODUCTS[product].standard_tick;
        let ticks = self.random.pick(&[1, 1, 1, 2, 500]);
        self.move_by(place, self.book.limit_today(product) + ticks * tick);
    }

    /// A contract that is due at an end of the sheet, up or down.
    fn move_by(&mut self, place: Place, size: u32) {
        let Some(index) = self.due_at(place) else {
            return;
        };
        let product = self.call.product as usize;
        let tick = PRODUCTS[product].standard_tick;
        let last = self.book.last_settlement(product, self.call.months[index]);
        let last = last.expect("a due contract was listed");
        if let Some(settlement) = moved(self.random, last, size, tick) {
            self.call.settlements[index] = settlement;
        }
    }

    /// Row 8.
    fn misprice(&mut self, place: Place) {
        let index = self.index(place, self.call.settlements.len());
        let odd = self.call.settlements[index] | 1;
        let above = LARGEST_PRICE + self.random.between(1, 4);
        let false_one = self.random.pick(&[0, odd, odd, above, u32::MAX]);
        self.call.settlements[index] = false_one;
    }

    /// Row 7.
    fn falsify_month(&mut self, place: Place) {
        let length = self.call.months.len();
        let index = self.index(place, length);
        match self.random.below(4) {
            0 => self.shift_month(index),
            1 if length > 1 => self.double_month(place),
            2 if length > 1 => self.swap_months(place),
            _ => self.date_back(place),
        }
    }

    /// A month that is not traded, mostly without disorder.
    fn shift_month(&mut self, index: usize) {
        let row = &PRODUCTS[self.call.product as usize];
        let month = self.call.months[index];
        let near = (month.saturating_sub(2)..=month.saturating_add(2)).rev();
        if let Some(other) = near.into_iter().find(|&near| !row.trades(near)) {
            self.call.months[index] = other;
        }
    }

    fn double_month(&mut self, place: Place) {
        let length = self.call.months.len();
        let (from, to) = match place {
            Place::Front => (1, 0),
            Place::Back => (length - 2, length - 1),
        };
        self.call.months[to] = self.call.months[from];
    }

    fn swap_months(&mut self, place: Place) {
        let length = self.call.months.len();
        let index = match place {
            Place::Front => 0,
            Place::Back => length - 2,
        };
        self.call.months.swap(index, index + 1);
        if index + 1 < self.call.settlements.len() {
            self.call.settlements.swap(index, index + 1);
        }
    }

    /// A traded month before the date's, put first where there is room, or in place of the last.
    fn date_back(&mut self, place: Place) {
        let (date, _) = self.book.last_opened().expect("a day is open");
        let row = &PRODUCTS[self.call.product as usize];
        let mut earlier = (0..date.contract_month())
            .rev()
            .filter(|&month| row.trades(month));
        let month = earlier.next().expect("a month of each year is traded");
        let length = self.call.months.len();
        if place == Place::Back || length == LARGEST_SHEET {
            let index = self.index(place, length);
            self.call.months[index] = month;
            return;
        }
        self.call.months.insert(0, month);
        self.call.settlements.insert(0, row.standard_tick * 100);
    }

    /// Row 9.
    fn leave_out(&mut self, place: Place) {
        let Some(index) = self.due_at(place) else {
            return;
        };
        if self.call.months.len() > 1 && index < self.call.settlements.len() {
            self.call.months.remove(index);
            self.call.settlements.remove(index);
        }
    }

    /// Row 6.
    fn misshape(&mut self) {
        match self.random.below(6) {
            0 => {
                self.call.months.clear();
                self.call.settlements.clear();
            }
            1 => self.random.pick(&[Vec::clear, |_: &mut Vec<u32>| {}])(&mut self.call.months),
            2 => self.call.settlements.clear(),
            3 => drop(self.call.settlements.pop()),
            4 => self.call.settlements.push(100),
            _ => self.lengthen(),
        }
    }

    /// To 17 entries, or many more.
    fn lengthen(&mut self) {
        let row = &PRODUCTS[self.call.product as usize];
        let many = self.random.pick(&[1_500, 1_500, 12_000]);
        let length = self
            .random
            .pick(&[17, 17, 17, 17, 17, 18, 40, 40, 40, many]);
        let mut month = *self.call.months.last().expect("the sheet has entries");
        while self.call.months.len() < length {
            month = month.saturating_add(1);
            if row.trades(month) || month == u32::MAX {
                self.call.months.push(month);
            }
        }
        self.call.settlements.resize(length, 100);
    }
}
