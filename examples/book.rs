//! The calls of first.c from Rust, linked with the installed archive:
//!
//!     rustc --edition 2021 examples/book.rs -L PREFIX/lib -l static=botskhela -o book

use std::mem::size_of;

/// The image of a book, field for field as botskhela.h has it.
#[allow(dead_code)] // a Rust program may read every field; this one reads none
mod image {
    pub const PRODUCTS: usize = 8;
    pub const GROUPS: usize = 5;

    #[repr(C)]
    pub struct Limit {
        pub initial: u32,
        pub expanded: u32,
    }

    #[repr(C)]
    pub struct Standing {
        pub expanded: u32,
        pub marked: u32,
    }

    #[repr(C)]
    pub struct Contract {
        pub month: u32,
        pub settlement: u32,
    }

    #[repr(C)]
    pub struct ProductSheet {
        pub count: u32,
        pub contracts: [Contract; 16],
    }

    #[repr(C)]
    pub struct Windows {
        pub counts: [u32; PRODUCTS],
        pub settlements: [[u32; 45]; PRODUCTS],
    }

    #[repr(C)]
    pub struct Event {
        pub kind: u32,
        pub month: u32,
        pub product: u32,
    }

    #[repr(C)]
    pub struct Book {
        pub format: u32,
        pub edition: u32,
        pub is_open: u32,
        pub year: u32,
        pub month: u32,
        pub day: u32,
        pub left: u32,
        pub limits: [Limit; PRODUCTS],
        pub standings: [Standing; GROUPS],
        pub windows: Windows,
        pub today: [ProductSheet; PRODUCTS],
        pub last: [ProductSheet; PRODUCTS],
        pub renewed: [u32; PRODUCTS],
        pub events: [Event; GROUPS],
    }
}

use image::{Book, PRODUCTS};

/// What a check answers, and the span of prices that it goes by.
#[repr(C)]
struct Span {
    answer: u32,
    lowest: u32,
    highest: u32,
}

const _: () = assert!(size_of::<Book>() == 4 * 952);
const _: () = assert!(size_of::<Span>() == 4 * 3);

const CORN: u32 = 0;
const STANDARD: u32 = 0;
const EDITION_2023: u32 = 2023;
const WITHIN: u32 = 101;
const BELOW: u32 = 102;
const ABOVE: u32 = 103;

extern "C" {
    fn botskhela_found(
        book: *mut Book,
        edition: u32,
        corn: u32,
        soybeans: u32,
        soybean_oil: u32,
        soybean_meal: u32,
        chicago_wheat: u32,
        kc_wheat: u32,
        oats: u32,
        rough_rice: u32,
    ) -> u32;
    fn botskhela_open(book: *mut Book, year: u32, month: u32, day: u32, left: u32) -> u32;
    fn botskhela_sheet(
        book: *mut Book,
        product: u32,
        months: *const u32,
        n_months: usize,
        settlements: *const u32,
        n_settlements: usize,
    ) -> u32;
    fn botskhela_end(book: *mut Book) -> u32;
    fn botskhela_check_span(book: *const Book, product: u32, size: u32, month: u32, price: u32) -> Span;
}

/// The number of a refusal.
#[derive(Debug)]
#[allow(dead_code)] // it is read by being printed
struct Refused(u32);

fn accepted(refusal: u32) -> Result<(), Refused> {
    match refusal {
        0 => Ok(()),
        number => Err(Refused(number)),
    }
}

// A reference is what the calls ask of a pointer, and a slice what they ask of an array.
impl Book {
    fn found(edition: u32, limits: [u32; PRODUCTS]) -> Result<Book, Refused> {
        let [corn, soybeans, oil, meal, chicago, kc, oats, rice] = limits;
        // A founding looks at nothing that the image holds.
        let mut book: Book = unsafe { std::mem::zeroed() };
        accepted(unsafe { botskhela_found(&mut book, edition, corn, soybeans, oil, meal, chicago, kc, oats, rice) })?;
        Ok(book)
    }

    fn open(&mut self, year: u32, month: u32, day: u32, left: u32) -> Result<(), Refused> {
        accepted(unsafe { botskhela_open(self, year, month, day, left) })
    }

    fn sheet(&mut self, product: u32, months: &[u32], settlements: &[u32]) -> Result<(), Refused> {
        accepted(unsafe {
            botskhela_sheet(self, product, months.as_ptr(), months.len(), settlements.as_ptr(), settlements.len())
        })
    }

    fn end(&mut self) -> Result<(), Refused> {
        accepted(unsafe { botskhela_end(self) })
    }

    fn check(&self, product: u32, size: u32, month: u32, price: u32) -> Span {
        unsafe { botskhela_check_span(self, product, size, month, price) }
    }
}

fn main() -> Result<(), Refused> {
    let july = 2024 * 12 + 7 - 1; // a month that all eight products trade
    let mut book = Book::found(EDITION_2023, [200, 600, 250, 200, 240, 240, 160, 100])?;

    book.open(2024, 6, 25, 3)?;
    for product in 0..PRODUCTS as u32 {
        book.sheet(product, &[july], &[3600])?;
    }
    book.end()?;
    book.open(2024, 6, 26, 2)?;
    for price in [3800, 3802] {
        let Span { answer, lowest, highest } = book.check(CORN, STANDARD, july, price);
        match answer {
            WITHIN => println!("{price} within"),
            BELOW => println!("{price} below, {lowest} to {highest} allowed"),
            ABOVE => println!("{price} above, {lowest} to {highest} allowed"),
            _ => println!("{price} free or refused"),
        }
    }
    Ok(())
}
