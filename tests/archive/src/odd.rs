//! Sound books that no list of calls makes, in images whose other words are random.

use oracle::amounts::LARGEST_LIMIT;
use oracle::book::edition::EDITIONS;
use oracle::book::sheet::LARGEST_SHEET;
use oracle::book::window::LARGEST_WINDOW;
use oracle::book::{Book, Entry, Level, Limits, Sheet, Standing, PRODUCT_COUNT};
use oracle::dates::Date;
use oracle::image::Image;
use oracle::prices::LARGEST_PRICE;
use oracle::products::PRODUCTS;
use oracle::testing::history::calendar::calendar;
use oracle::testing::history::pace;
use oracle::testing::random::Random;

/// The largest I whose E is below the largest limit lies near this.
const NEAR_CAP: u32 = 1_333_200;

/// An image of a sound book, and that book.
pub fn image(random: &mut Random) -> (Image, Book) {
    let book = book(random);
    let mut image = Image::of(&book);
    scatter(random, &mut image);
    (image, book)
}

/// A sound book: with no date, or with a date and no day open, or with a day open.
fn book(random: &mut Random) -> Book {
    let mut book = dateless(random);
    if random.one_in(8) {
        return book;
    }
    let day = random.below(calendar().days.len());
    let date = calendar().days[day];
    book.date = Some([date.year(), date.month(), date.day()]);
    book.left = pace::left_of(random, day, true, None);
    book.is_open = random.one_in(2);
    if !random.one_in(4) {
        book.last_ended = std::array::from_fn(|product| Some(last_sheet(random, product, date)));
    }
    if book.is_open {
        put_sheets_in(random, &mut book, date);
    }
    book
}

/// Any limits, standings and windows.
fn dateless(random: &mut Random) -> Book {
    let edition = random.pick(&EDITIONS);
    Book {
        edition,
        is_open: false,
        date: None,
        left: 0,
        standings: std::array::from_fn(|_| standing(random, edition)),
        limits: std::array::from_fn(|product| limits(random, product)),
        windows: std::array::from_fn(|product| window(random, product)),
        sheets_in: Default::default(),
        last_ended: Default::default(),
    }
}

fn standing(random: &mut Random, edition: u32) -> Standing {
    let level = random.pick(&[Level::Initial, Level::Expanded]);
    let can_be_marked = edition == 2023 && level == Level::Expanded;
    Standing {
        level,
        marked: can_be_marked && random.one_in(2),
    }
}

fn limits(random: &mut Random, product: usize) -> Limits {
    let row = &PRODUCTS[product];
    let low = row.floor + row.step * random.between(0, 40);
    let near_cap = (NEAR_CAP + row.step * random.between(0, 10)).next_multiple_of(row.step);
    let any = row.step * random.between(row.floor / row.step, LARGEST_LIMIT / row.step);
    let initial = random.pick(&[low, low, low, low, near_cap, any, LARGEST_LIMIT]);
    Limits::from_initial(product, initial)
}

fn window(random: &mut Random, product: usize) -> Vec<u32> {
    let drawn = random.below(LARGEST_WINDOW + 1);
    let count = random.pick(&[0, 1, 44, 45, 45, 45, drawn]);
    let most = random.pick(&[20, 10_000, LARGEST_PRICE]);
    (0..count)
        .map(|_| settlement(random, product, most))
        .collect()
}

/// On the standard tick, at most so large.
fn settlement(random: &mut Random, product: usize, most: u32) -> u32 {
    let tick = PRODUCTS[product].standard_tick;
    tick * random.between(1, most / tick)
}

/// Months on either side of the date, or anywhere in 32 bits.
fn last_sheet(random: &mut Random, product: usize, date: Date) -> Sheet {
    let near = date.contract_month() - random.below(8) as u32;
    let anywhere = random.word() >> random.below(20);
    let from = random.pick(&[near, near, near, near, near, anywhere, u32::MAX - 30]);
    let skips = random.pick(&[2, 5, 1_000]);
    let drawn = 1 + random.below(LARGEST_SHEET);
    let count = random.pick(&[drawn, LARGEST_SHEET]);
    let traded = (from..=u32::MAX).filter(|&month| PRODUCTS[product].trades(month));
    let listed = traded.filter(|_| !random.one_in(skips)).take(count);
    let months: Vec<u32> = listed.collect();
    if months.is_empty() {
        return last_sheet(random, product, date);
    }
    let most = random.pick(&[4_000, 40_000, LARGEST_PRICE]);
    let entry = |month| Entry {
        month,
        settlement: settlement(random, product, most),
    };
    months.into_iter().map(entry).collect()
}

/// All eight sheets mostly; else each or none.
fn put_sheets_in(random: &mut Random, book: &mut Book, date: Date) {
    let missing = random.pick(&[0, 0, 0, 2, 8]);
    for product in 0..PRODUCT_COUNT {
        if random.below(PRODUCT_COUNT) >= missing {
            let calm = random.one_in(2);
            book.sheets_in[product] = Some(sheet_in(random, book, product, date, calm));
        }
    }
}

/// The last ended sheet after a move of each contract, with some missing; or a sheet of its own.
fn sheet_in(random: &mut Random, book: &Book, product: usize, date: Date, calm: bool) -> Sheet {
    let Some(last) = &book.last_ended[product] else {
        return last_sheet(random, product, date);
    };
    if random.one_in(10) {
        return last_sheet(random, product, date);
    }
    let limits = book.limits[product];
    let mut sheet = last.clone();
    if random.one_in(3) {
        sheet.remove(random.below(last.len()));
    }
    for entry in &mut sheet {
        if !calm || random.one_in(12) {
            entry.settlement = moved(random, product, entry.settlement, limits);
        }
    }
    match sheet.is_empty() {
        true => last.clone(),
        false => sheet,
    }
}

/// By I, by E, or by a little more or less; not at all where that leads out of range.
fn moved(random: &mut Random, product: usize, last: u32, limits: Limits) -> u32 {
    let tick = PRODUCTS[product].standard_tick;
    let Limits { initial, expanded } = limits;
    let small = tick * random.between(0, 10);
    let size = random.pick(&[
        small,
        small,
        initial - tick,
        initial,
        initial,
        initial + tick,
        expanded - tick,
        expanded,
        expanded,
        expanded + tick,
    ]);
    let to = match random.one_in(2) {
        true => last.checked_add(size),
        false => last.checked_sub(size),
    };
    to.filter(|to| (tick..=LARGEST_PRICE).contains(to))
        .unwrap_or(last)
}

/// Fills the places that mean nothing, and what no call looks at, with random words.
fn scatter(random: &mut Random, image: &mut Image) {
    let mut filled = *image;
    let words = filled.words_mut();
    words.fill_with(|| random.word() >> random.pick(&[0, 0, 8, 16, 31]));
    image.renewed = filled.renewed;
    image.events = filled.events;
    copy_unused(image, &filled);
}

fn copy_unused(image: &mut Image, from: &Image) {
    for product in 0..PRODUCT_COUNT {
        let used = image.windows.counts[product] as usize;
        let places = &mut image.windows.settlements[product][used..];
        places.copy_from_slice(&from.windows.settlements[product][used..]);
    }
    let sheets = image.today.iter_mut().chain(&mut image.last);
    for (sheet, from) in sheets.zip(from.today.iter().chain(&from.last)) {
        let used = sheet.count as usize;
        sheet.contracts[used..].copy_from_slice(&from.contracts[used..]);
    }
}

#[cfg(test)]
mod tests {
    use super::*;

    #[test]
    fn every_book_is_sound_whatever_stands_in_unused_places() {
        let mut random = Random::new(7);
        for _ in 0..2_000 {
            let (image, book) = image(&mut random);
            assert!(book.is_sound(), "{book:?}");
            assert_ne!(image, Image::of(&book));
            assert_eq!(image.book(), Some(book));
        }
    }
}
