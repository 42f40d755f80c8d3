//! The image of a book: the struct of 32-bit numbers that include/botskhela.h lays out.

pub mod c;
pub mod calls;
pub mod read;
pub mod write;

#[cfg(test)]
mod tests;

use std::mem::offset_of;

use crate::book::sheet::LARGEST_SHEET;
use crate::book::window::LARGEST_WINDOW;
use crate::book::{GROUP_COUNT, PRODUCT_COUNT};

/// The format of the images that hold a book.
pub const FORMAT: u32 = 3;

/// How many words an image has.
pub const WORDS: usize = words(size_of::<Image>());

/// How many of them hold the book; the others hold what the last calls answered.
pub const BOOK_WORDS: usize = words(offset_of!(Image, renewed));

pub type Words = [u32; WORDS];

#[derive(Clone, Copy, Debug, Default, PartialEq, Eq)]
#[repr(C)]
pub struct LimitWords {
    pub initial: u32,
    pub expanded: u32,
}

#[derive(Clone, Copy, Debug, Default, PartialEq, Eq)]
#[repr(C)]
pub struct StandingWords {
    pub expanded: u32,
    pub marked: u32,
}

#[derive(Clone, Copy, Debug, Default, PartialEq, Eq)]
#[repr(C)]
pub struct ContractWords {
    pub month: u32,
    pub settlement: u32,
}

/// A count of 0 means that there is no sheet; places from the count on mean nothing.
#[derive(Clone, Copy, Debug, Default, PartialEq, Eq)]
#[repr(C)]
pub struct SheetWords {
    pub count: u32,
    pub contracts: [ContractWords; LARGEST_SHEET],
}

/// Places from a count on mean nothing.
#[derive(Clone, Copy, Debug, PartialEq, Eq)]
#[repr(C)]
pub struct WindowWords {
    pub counts: [u32; PRODUCT_COUNT],
    pub settlements: [[u32; LARGEST_WINDOW]; PRODUCT_COUNT],
}

#[derive(Clone, Copy, Debug, Default, PartialEq, Eq)]
#[repr(C)]
pub struct EventWords {
    pub kind: u32,
    pub month: u32,
    pub product: u32,
}

/// Any content is one that a caller may lend.
#[derive(Clone, Copy, Debug, PartialEq, Eq)]
#[repr(C)]
pub struct Image {
    pub format: u32,
    pub edition: u32,
    pub is_open: u32,
    pub year: u32,
    pub month: u32,
    pub day: u32,
    pub left: u32,
    pub limits: [LimitWords; PRODUCT_COUNT],
    pub standings: [StandingWords; GROUP_COUNT],
    pub windows: WindowWords,
    pub today: [SheetWords; PRODUCT_COUNT],
    pub last: [SheetWords; PRODUCT_COUNT],
    pub renewed: [u32; PRODUCT_COUNT],
    pub events: [EventWords; GROUP_COUNT],
}

/// So many bytes as words.
pub const fn words(bytes: usize) -> usize {
    bytes / size_of::<u32>()
}

/// Words of 32 bits alone, without padding.
const _: () = assert!(size_of::<Image>() == size_of::<Words>());
const _: () = assert!(align_of::<Image>() == align_of::<Words>());

impl Image {
    pub fn from_words(words: Words) -> Image {
        // SAFETY: an image is exactly these words, and each of them may have any value.
        unsafe { std::mem::transmute(words) }
    }

    pub fn words(&self) -> &Words {
        // SAFETY: as above.
        unsafe { &*(self as *const Image).cast() }
    }

    pub fn words_mut(&mut self) -> &mut Words {
        // SAFETY: as above.
        unsafe { &mut *(self as *mut Image).cast() }
    }

    /// The image with zeros in all places from a count on, since they mean nothing.
    pub fn without_unused(mut self) -> Image {
        let WindowWords {
            counts,
            settlements,
        } = &mut self.windows;
        for (count, places) in counts.iter().zip(settlements) {
            unused(places, *count).fill(0);
        }
        for sheet in self.today.iter_mut().chain(&mut self.last) {
            unused(&mut sheet.contracts, sheet.count).fill(ContractWords::default());
        }
        self
    }
}

/// The places from a count on; none where the count is beyond them.
fn unused<T>(places: &mut [T], count: u32) -> &mut [T] {
    let used = places.len().min(count as usize);
    &mut places[used..]
}
