//! How often calls answered what, and whether each answer was reached often enough.

use std::collections::BTreeMap;

use oracle::book::edition::EDITIONS;
use oracle::image::Image;

pub const UNSOUND: u32 = 1;

/// A call, or what one brings about, and the numbers that it can give.
pub type Range = (&'static str, &'static [u32]);

/// What each call can return.
pub const ANSWERS: [Range; 7] = [
    ("found", &[0, 17, 13]),
    ("open", &[0, UNSOUND, 2, 3, 4, 16]),
    ("sheet", &[0, UNSOUND, 2, 5, 11, 6, 7, 8, 9, 10]),
    ("end", &[0, UNSOUND, 2, 12]),
    ("convert", &[0, UNSOUND, 2, 18]),
    ("check", CHECK),
    ("tallied check", CHECK),
];

pub const CHECK: &[u32] = &[100, 101, 102, 103, UNSOUND, 2, 5, 14, 8];

/// What accepted openings and ends put in: whether a product got new limits, and a group's event. And the editions from
/// which images were converted, and the refusal that applied beside 2 to a conversion refused with it.
pub const OUTCOMES: [Range; 5] = [
    ("renewed", &[0, 1]),
    EVENTS[0],
    EVENTS[1],
    CONVERTED_FROM,
    OVER_OPEN,
];

pub const CONVERTED_FROM: Range = ("converted from", &EDITIONS);

/// The refusals of a conversion that apply beside the one it got, by the book in the image.
pub const OVER_UNSOUND: Range = ("convert, 1 over", &[2, 18]);
pub const OVER_OPEN: Range = ("convert, 2 over", &[18]);

/// Under the editions in their order; that of 2014 raises nothing.
pub const EVENTS: [Range; 2] = [
    ("event under 2014", &[0, 1, 2, 3]),
    ("event under 2023", &[0, 1, 2, 3, 4]),
];

pub const BROUGHT_BACK: &str = "brought back";
pub const NONE_FULL: &str = "next, none full";
pub const SAME_SEASON: &str = "same season";
pub const SKIPPED: &str = "season skipped";
pub const FIRST: &str = "first opening";

/// What came of an expanded group at an accepted opening, 1 where it was marked too. A full window of its own brings it
/// back in the next season; it is kept with one in the same season, over a skipped one and at a first opening.
pub const TURNS: [Range; 5] = [
    (BROUGHT_BACK, &[0, 1]),
    (NONE_FULL, &[0, 1]),
    (SAME_SEASON, &[0, 1]),
    (SKIPPED, &[0, 1]),
    (FIRST, &[0, 1]),
];

/// By how many of its products each coupled group was brought back, in the order of the oracle's table.
pub const BACK_BY: [Range; 2] = [("Complex back by", &[1, 2, 3]), ("wheats back by", &[1, 2])];

/// Of which product each coupled group's leading contracts were.
pub const LED_BY: [Range; 2] = [("Complex led by", &[1, 2, 3]), ("wheats led by", &[4, 5])];

/// Whether the ends of a check's span are the first price of the tick and the last price: 1 where they are.
pub const ENDS: [Range; 2] = [("lowest is first", &[0, 1]), ("highest is last", &[0, 1])];

#[derive(Default)]
pub struct Reached {
    counts: BTreeMap<(&'static str, u32), u64>,
}

impl Reached {
    pub fn count(&mut self, what: &'static str, number: u32) {
        *self.counts.entry((what, number)).or_insert(0) += 1;
    }

    /// Counts the refusals that come after the one that a conversion got.
    pub fn count_over(&mut self, image: &Image, number: u32) {
        let Some(book) = image.book() else {
            return;
        };
        let (what, _) = match number {
            UNSOUND => OVER_UNSOUND,
            _ => OVER_OPEN,
        };
        let is_expanded = book.edition == 2014 && book.has_expanded_group();
        let rows = [(2, book.is_open), (18, is_expanded)];
        for (row, applies) in rows {
            if applies && row > number {
                self.count(what, row);
            }
        }
    }

    /// Counts the events that an end put into an image.
    pub fn count_events(&mut self, after: &Image) {
        let place = EDITIONS
            .iter()
            .position(|&edition| edition == after.edition);
        let (what, _) = EVENTS[place.expect("an accepted end leaves an edition")];
        (after.events.iter()).for_each(|one| self.count(what, one.kind));
    }

    pub fn times(&self, what: &'static str, number: u32) -> u64 {
        self.counts.get(&(what, number)).copied().unwrap_or(0)
    }

    /// Prints the counts, and names those that are not what they should be.
    pub fn judge(&self, wanted: &[Range], is_enough: impl Fn(u32, u64) -> bool) -> Option<String> {
        let mut wrong = Vec::new();
        for (what, numbers) in wanted {
            let counts = numbers
                .iter()
                .map(|&number| (number, self.times(what, number)));
            let counts: Vec<(u32, u64)> = counts.collect();
            let shown: Vec<String> = counts.iter().map(shown).collect();
            println!("    {what:16} {}", shown.join(", "));
            let few = counts
                .iter()
                .filter(|(number, times)| !is_enough(*number, *times));
            wrong.extend(few.map(|count| format!("{what} {}", self::shown(count))));
        }
        (!wrong.is_empty()).then(|| wrong.join(", "))
    }
}

fn shown((number, times): &(u32, u64)) -> String {
    format!("{number}: {times}")
}

#[cfg(test)]
mod tests {
    use super::*;

    #[test]
    fn a_rare_answer_is_named() {
        let mut reached = Reached::default();
        for _ in 0..3 {
            reached.count("found", 0);
        }
        reached.count("found", 13);
        reached.count("found", 17);
        reached.count("found", 17);
        assert_eq!(reached.judge(&ANSWERS[..1], |_, times| times >= 1), None);
        let rare = reached.judge(&ANSWERS[..1], |_, times| times >= 2);
        assert_eq!(rare.as_deref(), Some("found 13: 1"));
    }
}
