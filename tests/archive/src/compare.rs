//! One call on an image, by the archive and by the second implementation.

use std::fmt::Debug;

use oracle::history::call::Call;
use oracle::image::calls::ACCEPTED;
use oracle::image::{Image, WORDS};
use oracle::tally::Tally;
use oracle::verdict::SpanWords;

use crate::archive::{self, Archive};
use crate::fields::Field;
use crate::memory::{Edge, Place};

/// What the second implementation returns, and what the archive did otherwise, if it did.
pub struct Compared {
    pub number: u32,
    pub difference: Option<String>,
}

/// Lends images to the archive, and compares.
pub struct Comparer {
    archive: Archive,
    place: Place,
    tally: Edge,
}

impl Comparer {
    pub fn new() -> Comparer {
        Comparer {
            archive: Archive::new(),
            place: Place::new(),
            tally: Edge::new(6),
        }
    }

    /// A call that may change the image. Gives the image after it, too.
    pub fn change(&mut self, image: &Image, call: &Call) -> (Compared, Image) {
        self.both(
            image,
            *call == Call::Convert,
            |image| by_oracle(image, call),
            |archive, image| archive.call(image, call),
        )
    }

    /// A sheet whose arrays lie where they lie.
    pub fn sheet(
        &mut self,
        image: &Image,
        product: u32,
        months: &[u32],
        settlements: &[u32],
    ) -> Compared {
        let (compared, _) = self.both(
            image,
            false,
            |image| image.sheet(product, months, settlements),
            |_, image| archive::sheet(image, product, months, settlements),
        );
        compared
    }

    /// Refused, a call leaves every word; accepted, those that mean something are as expected, or all of them.
    fn both(
        &mut self,
        image: &Image,
        is_exact: bool,
        by_oracle: impl FnOnce(&mut Image) -> u32,
        by_archive: impl FnOnce(&mut Archive, &mut Image) -> u32,
    ) -> (Compared, Image) {
        let mut after = *image;
        let number = by_oracle(&mut after);
        let lent = self.place.lend(image);
        let returned = by_archive(&mut self.archive, lent);
        let left = match number {
            ACCEPTED if is_exact => different_word(&after, lent),
            ACCEPTED => different_word(&after.without_unused(), &lent.without_unused()),
            _ => different_word(image, lent),
        };
        let difference = differs(number, returned).or(left);
        (Compared { number, difference }, after)
    }

    /// A check and the same with its span, on an image that cannot be written. Gives the span, too.
    pub fn check(&mut self, image: &Image, order: [u32; 4]) -> (Compared, SpanWords) {
        let expected = image.check_span(order);
        let (returned, span) = self
            .place
            .lend_sealed(image, |lent| archive::checks(lent, order));
        let number = expected.answer;
        let difference = differs(number, returned).or(differs(expected, span));
        (Compared { number, difference }, expected)
    }

    /// A check through a tally, which the second implementation leaves as it should be.
    pub fn tallied(&mut self, tally: &mut Tally, image: &Image, order: [u32; 4]) -> Compared {
        let lent = tally_in(self.tally.last(&counts(tally)));
        let returned = self
            .place
            .lend_sealed(image, |image| archive::tallied_check(lent, image, order));
        let number = image.tallied_check(tally, order);
        let left = (lent != tally).then(|| format!("{tally:?} expected, not {lent:?}"));
        Compared {
            number,
            difference: differs(number, returned).or(left),
        }
    }
}

fn by_oracle(image: &mut Image, call: &Call) -> u32 {
    match call {
        Call::Found(call) => image.found(call.edition, call.limits),
        Call::Open(numbers) => image.open(*numbers),
        Call::Sheet(sheet) => image.sheet(sheet.product, &sheet.months, &sheet.settlements),
        Call::End => image.end(),
        Call::Convert => image.convert(),
        Call::Check(_) | Call::Bare(_) | Call::Book => panic!("{call:?} changes no book"),
    }
}

fn counts(tally: &Tally) -> [u32; 6] {
    [
        tally.asked,
        tally.free,
        tally.within,
        tally.below,
        tally.above,
        tally.refused,
    ]
}

/// The tally that words are.
fn tally_in(words: &mut [u32]) -> &mut Tally {
    assert_eq!(4 * words.len(), size_of::<Tally>());
    // SAFETY: a tally is six words of any values.
    unsafe { &mut *words.as_mut_ptr().cast() }
}

fn differs<T: PartialEq + Debug>(expected: T, returned: T) -> Option<String> {
    let message = || format!("{expected:?} expected, the archive returns {returned:?}");
    (expected != returned).then(message)
}

/// The first word that is not as expected.
pub fn different_word(expected: &Image, left: &Image) -> Option<String> {
    let (expected, left) = (expected.words(), left.words());
    let word = (0..WORDS).find(|&word| expected[word] != left[word])?;
    Some(format!(
        "{:?} is {}, not {} as expected",
        Field::of(word),
        left[word],
        expected[word]
    ))
}
