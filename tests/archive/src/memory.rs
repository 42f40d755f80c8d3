//! Memory between two pages that nobody may touch: a call that goes beyond what it is lent ends the program.

use std::ffi::{c_int, c_long, c_void};
use std::ptr::null_mut;

use oracle::image::{Image, WORDS};

extern "C" {
    fn mmap(
        at: *mut c_void,
        length: usize,
        may: c_int,
        how: c_int,
        file: c_int,
        from: c_long,
    ) -> *mut c_void;
    fn mprotect(at: *mut c_void, length: usize, may: c_int) -> c_int;
}

const PAGE: usize = 4_096;

const MAY_NOTHING: c_int = 0;
const MAY_READ: c_int = 1;
const MAY_READ_AND_WRITE: c_int = 3;

/// Private memory that belongs to no file, and that is there only once it is touched.
const ANONYMOUS: c_int = 0x4022;

/// New pages of zeros; none where there is no room for them. They last as long as the program.
fn pages(bytes: usize, may: c_int) -> Option<*mut u32> {
    // SAFETY: new pages are nobody else's.
    let pages = unsafe { mmap(null_mut(), bytes, may, ANONYMOUS, -1, 0) };
    (pages as isize != -1).then_some(pages.cast())
}

/// Numbers that may be read, so many that they cannot all be written down: the first of them, then zeros.
pub fn many(first: u32, count: usize) -> Option<&'static [u32]> {
    let numbers = pages(4 * count, MAY_READ_AND_WRITE)?;
    // SAFETY: the pages have room for so many, and nothing writes them after this.
    unsafe {
        *numbers = first;
        Some(std::slice::from_raw_parts(numbers, count))
    }
}

pub struct Edge {
    begin: *mut u32,
    words: usize,
}

impl Edge {
    /// Room for at least so many words.
    pub fn new(words: usize) -> Edge {
        let bytes = (4 * words).next_multiple_of(PAGE);
        let guarded = pages(bytes + 2 * PAGE, MAY_NOTHING).expect("memory can be had");
        let edge = Edge {
            begin: guarded.wrapping_byte_add(PAGE),
            words: bytes / 4,
        };
        edge.allow(MAY_READ_AND_WRITE);
        edge
    }

    fn allow(&self, may: c_int) {
        // SAFETY: the pages are this one's own.
        let status = unsafe { mprotect(self.begin.cast(), 4 * self.words, may) };
        assert_eq!(status, 0, "memory can be guarded");
    }

    /// A copy that begins where the memory begins.
    pub fn first(&mut self, words: &[u32]) -> &mut [u32] {
        self.copy(words, 0)
    }

    /// A copy that ends where the memory ends.
    pub fn last(&mut self, words: &[u32]) -> &mut [u32] {
        self.copy(words, self.words - words.len())
    }

    fn copy(&mut self, words: &[u32], from: usize) -> &mut [u32] {
        assert!(from + words.len() <= self.words, "there is room");
        // SAFETY: these words are within the memory, which nothing else uses.
        let room = unsafe { std::slice::from_raw_parts_mut(self.begin.add(from), words.len()) };
        room.copy_from_slice(words);
        room
    }
}

/// Where an image lies while it is lent: by turns at the begin and at the end of its memory.
pub struct Place {
    edge: Edge,
    is_last: bool,
}

impl Place {
    pub fn new() -> Place {
        Place {
            edge: Edge::new(WORDS),
            is_last: false,
        }
    }

    pub fn lend(&mut self, image: &Image) -> &mut Image {
        self.is_last = !self.is_last;
        let words = match self.is_last {
            true => self.edge.last(image.words()),
            false => self.edge.first(image.words()),
        };
        image_in(words)
    }

    /// Lends an image that cannot be written meanwhile.
    pub fn lend_sealed<T>(&mut self, image: &Image, act: impl FnOnce(&Image) -> T) -> T {
        let lent: *const Image = self.lend(image);
        self.edge.allow(MAY_READ);
        // SAFETY: the image was put there just now, and may be read.
        let outcome = act(unsafe { &*lent });
        self.edge.allow(MAY_READ_AND_WRITE);
        outcome
    }
}

/// The image that words are, wherever they lie.
pub fn image_in(words: &mut [u32]) -> &mut Image {
    assert_eq!(words.len(), WORDS, "an image has as many words");
    // SAFETY: an image is so many words, aligned as a word, of any values.
    unsafe { &mut *words.as_mut_ptr().cast() }
}
