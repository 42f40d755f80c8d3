//! Calls to make on an image, drawn from a sound book: the image's own, or one that it is like.

use oracle::amounts::LARGEST_FOUNDING;
use oracle::book::edition::EDITIONS;
use oracle::book::groups::group_of;
use oracle::book::{Book, PRODUCT_COUNT};
use oracle::history::call::{Call, FoundCall, SheetCall};
use oracle::tally::Tally;
use oracle::testing::history::calendar::calendar;
use oracle::testing::history::{false_openings, faults, pace, stray, temper};
use oracle::testing::random::Random;

/// A founding that is accepted and one that is not, then an opening, a sheet, an end and a conversion.
pub fn changes(random: &mut Random, book: &Book) -> Vec<Call> {
    vec![
        founding(random),
        stray::false_founding(random),
        opening(random, book),
        sheet(random, book),
        Call::End,
        Call::Convert,
    ]
}

fn founding(random: &mut Random) -> Call {
    let mut limits = stray::fit_limits(random);
    if random.one_in(4) {
        limits[random.below(PRODUCT_COUNT)] = LARGEST_FOUNDING;
    }
    Call::Found(FoundCall {
        edition: random.pick(&EDITIONS),
        limits,
    })
}

/// The opening of a later day, one time in three a false one.
pub fn opening(random: &mut Random, book: &Book) -> Call {
    let next = next_day(random, book);
    match random.one_in(3) {
        true => false_openings::draw(random, book, next),
        false => Call::Open(next),
    }
}

/// A later day, of another season at times; any day for a book without a date.
fn next_day(random: &mut Random, book: &Book) -> [u32; 4] {
    let calendar = calendar();
    let ahead = random.pick(&[1, 1, 2, 30, 150, 184, 200, 400]);
    let day = match book.date {
        Some([year, month, day]) => calendar.place(year, month, day) + ahead,
        None => random.below(calendar.last()),
    };
    let day = day.min(calendar.last());
    let date = calendar.days[day];
    let left = pace::left_of(random, day, true, book.last_opened());
    [date.year(), date.month(), date.day(), left]
}

/// A sheet for the open day, half of the time with faults; where none is open, the last one again.
fn sheet(random: &mut Random, book: &Book) -> Call {
    let product = random.below(PRODUCT_COUNT);
    if !book.is_open {
        return Call::Sheet(stray::last_sheet(random, book, product));
    }
    let mut products = (0..PRODUCT_COUNT).map(|step| (product + step) % PRODUCT_COUNT);
    let missing = products.find(|&other| book.sheets_in[other].is_none());
    let product = match random.one_in(4) {
        true => product,
        false => missing.unwrap_or(product),
    };
    let good = good_sheet(random, book, product);
    Call::Sheet(match random.one_in(2) {
        true => faults::spoil(random, book, &good),
        false => good,
    })
}

fn good_sheet(random: &mut Random, book: &Book, product: usize) -> SheetCall {
    let market = temper::market(random);
    let drafts = market.draft(random, book, group_of(product));
    let mut own = drafts
        .into_iter()
        .filter(|one| one.product as usize == product);
    own.next().expect("a group has a sheet for each product")
}

/// Product, size, month and price, one time in three with a fault or two.
pub fn order(random: &mut Random, book: &Book) -> [u32; 4] {
    match random.one_in(3) {
        true => stray::false_order(random, book),
        false => stray::order(random, book),
    }
}

/// A tally that is what it should be, with room for more checks.
pub fn sound_tally(random: &mut Random) -> Tally {
    let most = random.pick(&[0, 1, 1_000, 800_000_000]);
    tally_of([(); 5].map(|()| random.between(0, most)))
}

/// The tally of five counts, added up in 32 bits.
pub fn tally_of([free, within, below, above, refused]: [u32; 5]) -> Tally {
    let counts = [free, within, below, above, refused];
    Tally {
        asked: counts.into_iter().fold(0, u32::wrapping_add),
        free,
        within,
        below,
        above,
        refused,
    }
}
