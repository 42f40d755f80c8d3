//! The calls of the archive, declared as include/botskhela.h declares them.

use oracle::bare::Order;
use oracle::history::call::{Call, FoundCall, SheetCall};
use oracle::image::Image;
use oracle::tally::Tally;
use oracle::verdict::SpanWords;

use crate::memory::Edge;

/// The bare check, or one of the calls for its ends.
type Bare = unsafe extern "C" fn(u32, u32, u32, u32, u32, u32) -> u32;

extern "C" {
    fn botskhela_bare_check(
        product: u32,
        size: u32,
        settlement: u32,
        amount: u32,
        spot: u32,
        price: u32,
    ) -> u32;
    fn botskhela_bare_lowest(
        product: u32,
        size: u32,
        settlement: u32,
        amount: u32,
        spot: u32,
        price: u32,
    ) -> u32;
    fn botskhela_bare_highest(
        product: u32,
        size: u32,
        settlement: u32,
        amount: u32,
        spot: u32,
        price: u32,
    ) -> u32;
    fn botskhela_found(
        book: *mut Image,
        edition: u32,
        corn: u32,
        soybeans: u32,
        soybean_oil: u32,
        soybean_meal: u32,
        chicago_wheat: u32,
        kc_wheat: u32,
        oats: u32,
        rough_rice: u32,
    ) -> u32;
    fn botskhela_open(book: *mut Image, year: u32, month: u32, day: u32, left: u32) -> u32;
    fn botskhela_sheet(
        book: *mut Image,
        product: u32,
        months: *const u32,
        n_months: usize,
        settlements: *const u32,
        n_settlements: usize,
    ) -> u32;
    fn botskhela_end(book: *mut Image) -> u32;
    fn botskhela_convert(book: *mut Image) -> u32;
    fn botskhela_check(book: *const Image, product: u32, size: u32, month: u32, price: u32) -> u32;
    fn botskhela_check_span(
        book: *const Image,
        product: u32,
        size: u32,
        month: u32,
        price: u32,
    ) -> SpanWords;
    fn botskhela_tallied_book_check(
        tally: *mut Tally,
        book: *const Image,
        product: u32,
        size: u32,
        month: u32,
        price: u32,
    ) -> u32;
}

/// The longest sheet that is lent.
const LONGEST: usize = 16_384;

/// Makes calls, each array of a sheet at the end of the memory that may be read.
pub struct Archive {
    months: Edge,
    settlements: Edge,
}

impl Archive {
    pub fn new() -> Archive {
        Archive {
            months: Edge::new(LONGEST),
            settlements: Edge::new(LONGEST),
        }
    }

    /// The number that a call returns which may change a book.
    ///
    /// # Panics
    /// Where the call is one that never does.
    pub fn call(&mut self, book: &mut Image, call: &Call) -> u32 {
        match call {
            Call::Found(call) => found(book, *call),
            Call::Open([year, month, day, left]) => {
                // SAFETY: the book is lent as the header asks; so in each call below.
                unsafe { botskhela_open(book, *year, *month, *day, *left) }
            }
            Call::Sheet(sheet) => self.sheet(book, sheet),
            Call::End => unsafe { botskhela_end(book) },
            Call::Convert => unsafe { botskhela_convert(book) },
            Call::Check(_) | Call::Bare(_) | Call::Book => panic!("{call:?} changes no book"),
        }
    }

    fn sheet(&mut self, book: &mut Image, call: &SheetCall) -> u32 {
        let months = self.months.last(&call.months);
        let settlements = self.settlements.last(&call.settlements);
        sheet(book, call.product, months, settlements)
    }
}

pub fn sheet(book: &mut Image, product: u32, months: &[u32], settlements: &[u32]) -> u32 {
    // SAFETY: a pointer comes with the length of its array.
    unsafe {
        botskhela_sheet(
            book,
            product,
            months.as_ptr(),
            months.len(),
            settlements.as_ptr(),
            settlements.len(),
        )
    }
}

fn found(book: &mut Image, call: FoundCall) -> u32 {
    let [corn, soybeans, soybean_oil, soybean_meal, chicago_wheat, kc_wheat, oats, rough_rice] =
        call.limits;
    unsafe {
        botskhela_found(
            book,
            call.edition,
            corn,
            soybeans,
            soybean_oil,
            soybean_meal,
            chicago_wheat,
            kc_wheat,
            oats,
            rough_rice,
        )
    }
}

/// A check, and the same with its span.
pub fn checks(book: &Image, [product, size, month, price]: [u32; 4]) -> (u32, SpanWords) {
    unsafe {
        (
            botskhela_check(book, product, size, month, price),
            botskhela_check_span(book, product, size, month, price),
        )
    }
}

pub fn tallied_check(tally: &mut Tally, book: &Image, order: [u32; 4]) -> u32 {
    let [product, size, month, price] = order;
    unsafe { botskhela_tallied_book_check(tally, book, product, size, month, price) }
}

/// The bare check, and what the two calls for its ends return.
pub fn bare(order: &Order) -> SpanWords {
    SpanWords {
        answer: number(botskhela_bare_check, order),
        lowest: number(botskhela_bare_lowest, order),
        highest: number(botskhela_bare_highest, order),
    }
}

fn number(call: Bare, order: &Order) -> u32 {
    let Order {
        product,
        size,
        settlement,
        amount,
        spot,
        price,
    } = *order;
    // SAFETY: any six numbers may be asked.
    unsafe { call(product, size, settlement, amount, spot, price) }
}
