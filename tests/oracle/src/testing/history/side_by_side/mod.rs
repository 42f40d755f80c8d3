//! Pairs of histories that agree on a group's sheets, and on openings, ends and conversions, and on no more.

mod side;

#[cfg(test)]
pub mod tests;

use super::calendar::calendar;
use super::compare::{lines, shown};
use super::listing::Collected;
use super::pace::{self, Phase};
use super::view::{self, Kind};
use super::{stray, temper};
use crate::book::{Book, GROUPS};
use crate::history::answer;
use crate::history::call::Call;
use crate::testing::random::Random;
use side::{Agreed, Side};

/// The edition of a founding, and whether the book is carried to that of 2023.
type Course = (u32, bool);

/// Each edition alone has two, since its events have to be reached in several pairs that are not carried.
const COURSES: [Course; 5] = [
    (2014, false),
    (2023, false),
    (2014, false),
    (2023, false),
    (2014, true),
];

/// Each temper on each course.
pub const PAIRS_A_GROUP: u64 = COURSES.len() as u64 * temper::TURNS;

/// Of so many days under 2023 one follows a conversion that changes nothing.
const AGAIN: usize = 12;

/// Of so many pairs one is led into a season that gives its group new limits, and another into a season that gives them
/// to other groups on one side alone; few draws reach either.
const LED: u64 = 4;

const DAYS: usize = 60;

pub struct Pair {
    pub group: usize,
    /// Under which both sides are founded.
    pub edition: u32,
    /// Both are carried to 2023 once so many days have ended.
    pub converts_after: Option<usize>,
    pub sides: [Side; 2],
}

/// Draws a pair for a group.
pub fn pair(group: usize, seed: u64) -> Pair {
    let mut random = Random::new(seed ^ (group as u64) << 32 ^ 0x51DE);
    let mut sides = [0, 1].map(|side| Side::new(&mut random, seed, side));
    let [first, second] = &mut sides;
    let (edition, is_carried) = COURSES[(seed / temper::TURNS) as usize % COURSES.len()];
    first.temper.edition = edition;
    second.temper.edition = edition;
    for &product in GROUPS[group] {
        second.temper.limits[product] = first.temper.limits[product];
    }
    if random.one_in(2) {
        second.temper.limits = first.temper.limits;
    }
    match seed % LED {
        0 => renew(&mut random, first, group),
        1 => renew_others(&mut random, [first, second]),
        _ => {}
    }
    sides.iter_mut().for_each(Side::found);
    let mut pair = Pair {
        group,
        edition,
        converts_after: is_carried.then(|| DAYS / 6 + random.below(DAYS / 2)),
        sides,
    };
    pair.live(&mut random);
    pair
}

/// Into a season that gives the group new limits; its sheets are the first side's on both.
fn renew(random: &mut Random, first: &mut Side, group: usize) {
    temper::turn_season(random, &mut first.temper);
    temper::collect(&mut first.temper, GROUPS[group], Collected::Behind(0));
}

/// Into a season that gives no new limits on the first side, and on the second to every group whose sheets are its own.
fn renew_others(random: &mut Random, [first, second]: [&mut Side; 2]) {
    temper::turn_season(random, &mut first.temper);
    for products in GROUPS {
        temper::collect(&mut first.temper, products, Collected::Never);
        temper::collect(&mut second.temper, products, Collected::Behind(0));
    }
}

impl Pair {
    fn live(&mut self, random: &mut Random) {
        let mut today = self.sides[0].temper.first_day;
        let pace = self.sides[0].temper.pace;
        for ended in 1..=DAYS {
            let phase = match self.converts_after == Some(ended) {
                true => Phase::Calm,
                false => pace.phase(ended),
            };
            for side in &mut self.sides {
                side.temper.market.phase = phase;
            }
            let converts = self.converts_before(random, ended);
            let agreed = self.agree(random, today, converts);
            for side in &mut self.sides {
                side.day(self.group, &agreed, ended < DAYS);
            }
            let left = agreed.opening[3];
            match pace::next_day(random, pace, (today, left), ended) {
                Some(next) => today = next,
                None => return,
            }
        }
    }

    /// Whether a conversion comes before a day, which both sides accept.
    fn converts_before(&self, random: &mut Random, day: usize) -> bool {
        let book = self.sides[0].book.as_ref().expect("a book was founded");
        match book.edition {
            2014 => self.converts_after == Some(day - 1),
            _ => random.one_in(AGAIN),
        }
    }

    /// Draws what both sides do, on a copy of the first side's book.
    fn agree(&self, random: &mut Random, today: usize, converts: bool) -> Agreed {
        let side = &self.sides[0];
        let date = calendar().days[today];
        let last = side.book.as_ref().and_then(Book::last_opened);
        let left = pace::left_of(random, today, side.temper.has_strange_left, last);
        let opening = [date.year(), date.month(), date.day(), left];
        let mut book = side.book.clone();
        if converts {
            answer::answer(&mut book, &Call::Convert);
        }
        answer::answer(&mut book, &Call::Open(opening));
        let book = book.expect("a book was founded");
        let checks = (0..random.below(5)).map(|_| {
            let product = GROUPS[self.group][random.below(GROUPS[self.group].len())];
            Call::Check(order(random, &book, product))
        });
        Agreed {
            converts,
            opening,
            checks: checks.collect(),
            sheets: side.temper.market.draft(random, &book, self.group),
        }
    }

    /// What a program answered differently on the two sides, if anything.
    pub fn difference(&self, outputs: [&[u8]; 2]) -> Option<String> {
        let answers = outputs.map(lines);
        let probes = self.sides.each_ref().map(|side| &side.probes);
        assert_eq!(
            probes[0].len(),
            probes[1].len(),
            "the sides agree on what is compared"
        );
        let pairs = probes[0].iter().zip(probes[1]);
        for (number, (first, second)) in pairs.enumerate() {
            let seen =
                [(0, first), (1, second)].map(|(side, probe)| self.part(&answers[side], probe));
            if seen[0].is_none() || seen[0] != seen[1] {
                return Some(format!(
                    "probe {number} ({:?}): the one side answers {}, the other {}",
                    first.1,
                    shown(answers[0].get(first.0).copied()),
                    shown(answers[1].get(second.0).copied()),
                ));
            }
        }
        None
    }

    fn part(&self, answers: &[&[u8]], (place, kind): &(usize, Kind)) -> Option<String> {
        let answer = std::str::from_utf8(answers.get(*place)?).ok()?;
        view::part(*kind, self.group, answer)
    }
}

/// An order of a product, at times a false one.
fn order(random: &mut Random, book: &Book, product: usize) -> [u32; 4] {
    if !random.one_in(5) {
        return stray::order_of(random, book, product);
    }
    let [_, size, month, price] = stray::false_order(random, book);
    [product as u32, size, month, price]
}
