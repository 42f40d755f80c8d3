//! The temper of a history: its founding, its listings, its pace and how much goes wrong.

use super::calendar::calendar;
use super::listing::{Collected, Custom};
use super::market::Market;
use super::pace::{Pace, Phase};
use super::stray;
use crate::book::edition::EDITIONS;
use crate::book::groups::{group_of, COUPLED, GROUPS};
use crate::book::sheet::LARGEST_SHEET;
use crate::book::window::LARGEST_WINDOW;
use crate::history::call::{Call, FoundCall};
use crate::products::PRODUCTS;
use crate::testing::random::Random;

pub struct Temper {
    pub edition: u32,
    pub limits: [u32; 8],
    pub market: Market,
    pub pace: Pace,
    /// The place of the first day in the calendar.
    pub first_day: usize,
    /// One in so many chances for a stray call is taken.
    pub quiet: usize,
    /// Business days left need not be those of the calendar.
    pub has_strange_left: bool,
    /// The book is carried to the edition of 2023 once so many days have ended.
    pub converts_after: Option<usize>,
}

impl Temper {
    pub fn founding(&self) -> Call {
        Call::Found(FoundCall {
            edition: self.edition,
            limits: self.limits,
        })
    }
}

/// How many tempers take turns.
pub const TURNS: u64 = 7;

/// Tempers take turns, so that every run of seeds has all of them.
pub fn draw(random: &mut Random, seed: u64) -> Temper {
    let mut temper = common(random);
    match seed % TURNS {
        0 => live_through_seasons(random, &mut temper),
        1 => fill_some_windows(random, &mut temper, seed / TURNS),
        2 => go_wrong(random, &mut temper),
        3 => near_the_largest(random, &mut temper),
        4 => temper.pace = Pace::MonthEnds,
        5 => leap_years(random, &mut temper),
        _ => temper.pace = random.pick(&[Pace::Daily, Pace::Uneven]),
    }
    if temper.edition == 2014 && random.one_in(2) {
        temper.converts_after = Some(conversion_day(random, temper.pace));
    }
    temper
}

/// Within one of the first two seasons that are lived through, or at the end of one; else any day, the first ones too.
fn conversion_day(random: &mut Random, pace: Pace) -> usize {
    let (Pace::Seasons(stay) | Pace::NextSeason(stay)) = pace else {
        return random.pick(&[0, 1, 2, 5, 12, 40, 80]);
    };
    let within = 1 + random.below(stay - 1);
    let end = stay - 1;
    random.pick(&[within, end, stay + within, stay + end, stay + end])
}

fn common(random: &mut Random) -> Temper {
    let last = calendar().last();
    Temper {
        // Of those under 2014 many are converted.
        edition: random.pick(&[2014, 2014, 2023]),
        limits: stray::fit_limits(random),
        market: market(random),
        pace: Pace::Uneven,
        first_day: random.below(last - 2_000),
        quiet: 3,
        has_strange_left: random.one_in(2),
        converts_after: None,
    }
}

/// Listings of every kind, and a mood on every day.
pub fn market(random: &mut Random) -> Market {
    Market {
        customs: std::array::from_fn(|product| custom(random, product)),
        driver: None,
        calm: 1,
        phase: Phase::Middle,
    }
}

fn custom(random: &mut Random, product: usize) -> Custom {
    let first = PRODUCTS[product].first;
    let low = random.between(20, 4_000);
    let middle = random.between(4_000, 60_000);
    let high = random.between(60_000, 990_000);
    Custom {
        contracts: random.pick(&[1, 2, 4, first, first + 1, first + 2, 12, 12, 15, 16, 16]),
        leaves_out: random.pick(&[3, 5, 8, 1_000]),
        drops_spot: random.pick(&[1, 2, 2, 4]),
        is_far: random.one_in(6),
        collected: Collected::Any,
        price: random.pick(&[low, middle, middle, middle, high]),
    }
}

/// Few stray calls and most contracts listed, so that windows fill up and seasons turn.
fn live_through_seasons(random: &mut Random, temper: &mut Temper) {
    temper.quiet = 60;
    temper.has_strange_left = false;
    temper.pace = Pace::Seasons(random.pick(&[30, 44, 45, 46, 47, 52, 60]));
    temper.first_day = season_start(random);
    temper.market.calm = random.pick(&[1, 1, 60]);
    for (product, custom) in temper.market.customs.iter_mut().enumerate() {
        custom.contracts = random.pick(&[4, 9, 12, 12, 16, 16]);
        custom.leaves_out = random.pick(&[8, 1_000, 1_000]);
        if random.one_in(3) {
            custom.price = 1_000;
            temper.limits[product] = PRODUCTS[product].floor;
        }
    }
}

/// One in so many is none.
const NEVER: usize = usize::MAX;

/// Seasons that give new limits to some products and not to others; every other turn to one alone of each coupled group.
fn fill_some_windows(random: &mut Random, temper: &mut Temper, turn: u64) {
    live_through_seasons(random, temper);
    // Each product that is filled alone has its turns under either edition.
    temper.edition = EDITIONS[turn as usize / 6 % EDITIONS.len()];
    let stay = random.pick(&[46, 46, 47, 48]);
    temper.pace = Pace::Seasons(stay);
    // Without moods limits stay what they are, and season limits can be equal to them.
    temper.market.calm = random.pick(&[1, NEVER]);
    // The first season is a day shorter than the others.
    let one_short = Collected::Behind(stay - LARGEST_WINDOW);
    let later = Collected::Behind(20);
    let alone = COUPLED.map(|group| GROUPS[group][turn as usize / 2 % GROUPS[group].len()]);
    for (product, custom) in temper.market.customs.iter_mut().enumerate() {
        let is_full = match COUPLED.contains(&group_of(product)) && turn.is_multiple_of(2) {
            true => alone.contains(&product),
            false => random.one_in(2),
        };
        custom.contracts = random.pick(&[4, 9, 12]);
        custom.collected = match is_full {
            true => Collected::Behind(0),
            false => random.pick(&[one_short, later, later, Collected::Never]),
        };
    }
}

/// A year's contracts of any product, a far one among them.
const A_YEAR: usize = 9;

/// Lives through one season and on into the next.
pub fn turn_season(random: &mut Random, temper: &mut Temper) {
    temper.first_day = season_start(random);
    // A small left would cut months short, and so the windows.
    temper.has_strange_left = false;
    temper.pace = Pace::NextSeason(random.pick(&[46, 47, 52, 60]));
}

/// Has these products list their collected contracts so, among a year's at least.
pub fn collect(temper: &mut Temper, products: &[usize], collected: Collected) {
    for &product in products {
        let custom = &mut temper.market.customs[product];
        // There has to be room for the collected one.
        custom.contracts = custom.contracts.clamp(A_YEAR, LARGEST_SHEET - 1);
        custom.collected = collected;
    }
}

/// The place of the first of May or November of some year.
fn season_start(random: &mut Random) -> usize {
    let month = random.pick(&[5, 11]);
    calendar().place(random.between(2000, 2090), month, 1)
}

fn go_wrong(random: &mut Random, temper: &mut Temper) {
    temper.quiet = 1;
    temper.pace = random.pick(&[Pace::Daily, Pace::Uneven, Pace::MonthEnds]);
}

/// Products of a group near the largest founding limit, driven by another of the group.
fn near_the_largest(random: &mut Random, temper: &mut Temper) {
    let group = random.pick(&COUPLED);
    let driver = random.pick(GROUPS[group]);
    for &product in GROUPS[group] {
        let floor = PRODUCTS[product].floor;
        temper.limits[product] = match product == driver {
            true => floor,
            false => random.pick(&[1_000_000, 1_000_000, 900_000, floor]),
        };
    }
    temper.market.driver = Some(driver);
    temper.market.customs[driver].contracts = 12;
    temper.market.customs[driver].price = random.between(20_000, 500_000);
}

/// From the first years of the calendar, or to its last day.
fn leap_years(random: &mut Random, temper: &mut Temper) {
    let last = calendar().last();
    let near_end = last - random.pick(&[20, 60, 120]);
    temper.pace = random.pick(&[Pace::Leaps, Pace::Leaps, Pace::Daily]);
    temper.first_day = random.pick(&[0, 0, 300, near_end, near_end]);
    temper.quiet = random.pick(&[3, 20]);
}
