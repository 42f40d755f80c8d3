//! Every opening of a month, and of two others, after every left on a day early in it.

use oracle::history::call::Call;
use oracle::image::calls::ACCEPTED;
use oracle::image::Image;
use oracle::testing::score::Score;

use crate::bases::Base;
use crate::compare::Comparer;
use crate::reached::{Range, Reached, UNSOUND};

const EARLY: u32 = 5;

/// More than the days remaining after any day.
const TOO_LARGE: u32 = 31;

/// What openings can return while no day is open.
const ANSWERS: Range = ("open", &[ACCEPTED, UNSOUND, 3, 4, 16]);

/// Each of them has to be reached so often.
const LEAST: u64 = 1_000;

pub fn compare(comparer: &mut Comparer, bases: &[Base], score: &mut Score) {
    let mut reached = Reached::default();
    let mut failures = Vec::new();
    for left in 0..=TOO_LARGE {
        let image = closed_with(bases, left);
        for opening in openings(&image) {
            let (compared, _) = comparer.change(&image, &Call::Open(opening));
            reached.count("open", compared.number);
            let named = |difference| format!("{opening:?} after left {left}: {difference}");
            failures.push(compared.difference.map(named));
        }
    }
    score.all("openings after every left of a month", &failures);
    let rare = reached.judge(&[ANSWERS], |_, times| times >= LEAST);
    score.one("openings after every left reach every answer", rare);
}

/// An image whose last day was early in a month, with so much left.
fn closed_with(bases: &[Base], left: u32) -> Image {
    let is_closed = |base: &&Base| !base.book.is_open && base.book.date.is_some();
    let base = bases.iter().find(is_closed).expect("a base has ended days");
    let mut image = base.image;
    image.day = EARLY;
    image.left = left;
    image
}

/// Every day and left of the image's month, of the same month a year later, and of the next month.
fn openings(image: &Image) -> impl Iterator<Item = [u32; 4]> {
    let (year, month) = (image.year, image.month);
    let months = [
        (year, month),
        (year + 1, month),
        (year + month / 12, month % 12 + 1),
    ];
    let days = months
        .into_iter()
        .flat_map(|(year, month)| (1..=31).map(move |day| [year, month, day]));
    days.flat_map(|[year, month, day]| (0..=TOO_LARGE).map(move |left| [year, month, day, left]))
}
