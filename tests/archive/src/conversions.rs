//! Conversions of images of each format, edition and level, and the days after them.

use oracle::book::edition::{Edition, EDITIONS};
use oracle::book::{Book, GROUP_COUNT};
use oracle::history::call::Call;
use oracle::image::calls::ACCEPTED;
use oracle::image::{Image, StandingWords, FORMAT};
use oracle::testing::history::stray::FALSE_EDITIONS;
use oracle::testing::history::temper;
use oracle::testing::random::Random;
use oracle::testing::score::Score;

use crate::bases::Base;
use crate::compare::{different_word, Comparer};
use crate::draw;
use crate::images::name_of;
use crate::odd;
use crate::reached::{Range, Reached, CONVERTED_FROM, EVENTS, OVER_OPEN, OVER_UNSOUND, UNSOUND};

const SEED: u64 = 20_230_107;

const FORMATS: [u32; 6] = [FORMAT, 0, 1, 2, 4, u32::MAX];

const WRONG_PHASE: u32 = 2;
const GROUP_EXPANDED: u32 = 18;

const CONVERT: Range = ("convert", &[ACCEPTED, UNSOUND, WRONG_PHASE, GROUP_EXPANDED]);

/// So many images under 2014 are carried, and each lives on for so many days.
const CARRIED: usize = 1_000;
const DAYS: usize = 5;

/// Each answer to the calls of those days has to be reached so often.
const LEAST: u64 = 10;

/// What the calls after a conversion can return, apart from orders.
const AFTERWARDS: [Range; 4] = [
    ("open", &[ACCEPTED, 3, 4, 16]),
    ("sheet", &[ACCEPTED, WRONG_PHASE, 9, 10]),
    ("end", &[ACCEPTED, WRONG_PHASE, 12]),
    ("convert", &[ACCEPTED, WRONG_PHASE]),
];

pub fn compare(comparer: &mut Comparer, bases: &[Base], score: &mut Score) {
    of_every_kind(comparer, bases, score);
    carried(comparer, score);
}

/// Levels and marks, on one group or on all.
fn standings() -> impl Iterator<Item = [StandingWords; GROUP_COUNT]> {
    let initial = [StandingWords::default(); GROUP_COUNT];
    let expanded = StandingWords {
        expanded: 1,
        marked: 0,
    };
    let marked = StandingWords {
        expanded: 1,
        marked: 1,
    };
    let alone = [expanded, marked].into_iter().flat_map(move |standing| {
        (0..GROUP_COUNT).map(move |group| {
            let mut standings = initial;
            standings[group] = standing;
            standings
        })
    });
    let all = [initial, [expanded; GROUP_COUNT], [marked; GROUP_COUNT]];
    alone.chain(all)
}

/// Each base with each format, edition and level.
fn of_every_kind(comparer: &mut Comparer, bases: &[Base], score: &mut Score) {
    let mut reached = Reached::default();
    let mut failures = Vec::new();
    let editions = || EDITIONS.into_iter().chain(FALSE_EDITIONS);
    let kinds = FORMATS
        .into_iter()
        .flat_map(|format| editions().map(move |edition| (format, edition)));
    for (format, edition) in kinds {
        for standings in standings() {
            for base in bases {
                let image = Image {
                    format,
                    edition,
                    standings,
                    ..base.image
                };
                let failure = convert(comparer, &image, &mut reached);
                let named =
                    |why| format!("{format}, {edition}, {standings:?}, {}: {why}", base.name);
                failures.push(failure.map(named));
            }
        }
    }
    score.all("conversions of images of every kind", &failures);
    let wanted = [CONVERT, CONVERTED_FROM, OVER_UNSOUND, OVER_OPEN];
    let rare = reached.judge(&wanted, |_, times| times > 0);
    score.one("conversions reach every answer", rare);
}

/// What an image whose other fields are sound is due, by the order of the refusals.
fn due(image: &Image) -> u32 {
    let edition = Edition::of(image.edition).filter(|_| image.format == FORMAT);
    let has = |flag: fn(&StandingWords) -> u32| image.standings.iter().any(|one| flag(one) == 1);
    let is_under_2014 = edition == Some(Edition::Of2014);
    match edition {
        None => UNSOUND,
        _ if is_under_2014 && has(|one| one.marked) => UNSOUND,
        _ if image.is_open == 1 => WRONG_PHASE,
        _ if is_under_2014 && has(|one| one.expanded) => GROUP_EXPANDED,
        _ => ACCEPTED,
    }
}

/// Refused, it leaves every word; accepted, every word but the edition, which is 2023 then.
fn convert(comparer: &mut Comparer, image: &Image, reached: &mut Reached) -> Option<String> {
    let (compared, after) = comparer.change(image, &Call::Convert);
    let number = due(image);
    let mut expected = *image;
    if number == ACCEPTED {
        expected.edition = 2023;
        reached.count(CONVERTED_FROM.0, image.edition);
    }
    reached.count(CONVERT.0, compared.number);
    if compared.number != ACCEPTED {
        reached.count_over(image, compared.number);
    }
    let wrong = || format!("{number} is due, not {}", compared.number);
    let is_wrong = compared.number != number;
    compared
        .difference
        .or(is_wrong.then(wrong))
        .or(different_word(&expected, &after))
}

/// Sound images that no calls make, carried; then every call once, and days one after another.
fn carried(comparer: &mut Comparer, score: &mut Score) {
    let mut random = Random::new(SEED);
    let mut reached = Reached::default();
    let mut failures = Vec::new();
    for number in 0..CARRIED {
        let image = to_be_carried(&mut random);
        let mut walk = Walk {
            comparer: &mut *comparer,
            random: &mut random,
            reached: &mut reached,
            image,
            failure: None,
        };
        walk.go();
        let named = |why| format!("number {number}: {why}");
        failures.push(walk.failure.map(named));
    }
    score.all(
        "images that are carried, and their days after it",
        &failures,
    );
    let wanted = [&AFTERWARDS[..], &EVENTS[1..]].concat();
    let rare = reached.judge(&wanted, |_, times| times >= LEAST);
    score.one("images that are carried reach every event of 2023", rare);
}

/// Under 2014, with no day open and no group expanded.
fn to_be_carried(random: &mut Random) -> Image {
    let (mut image, _) = odd::image(random);
    image.edition = 2014;
    image.is_open = 0;
    image.standings = Default::default();
    (image.today.iter_mut()).for_each(|sheet| sheet.count = 0);
    image
}

/// Calls on one image after another.
struct Walk<'a> {
    comparer: &'a mut Comparer,
    random: &'a mut Random,
    reached: &'a mut Reached,
    image: Image,
    failure: Option<String>,
}

impl Walk<'_> {
    fn go(&mut self) {
        self.step(&Call::Convert);
        self.every_call();
        (0..DAYS).for_each(|_| self.day());
    }

    fn book(&self) -> Book {
        self.image.book().expect("a sound image holds a book")
    }

    /// An opening, at times a false one; every call on the open day; then its sheets and its end.
    fn day(&mut self) {
        let opening = draw::opening(self.random, &self.book());
        self.step(&opening);
        let book = self.book();
        if !book.is_open {
            return;
        }
        self.every_call();
        let market = temper::market(self.random);
        for sheet in market.draft_all(self.random, &book) {
            self.step(&Call::Sheet(sheet));
        }
        self.step(&Call::End);
    }

    /// Each on the image as it is.
    fn every_call(&mut self) {
        let book = self.book();
        for call in draw::changes(self.random, &book) {
            self.call(&call);
        }
        let order = draw::order(self.random, &book);
        let (checked, _) = self.comparer.check(&self.image, order);
        self.note(checked.difference, || format!("check {order:?}"));
    }

    /// A call that leads on to the next image.
    fn step(&mut self, call: &Call) {
        self.image = self.call(call);
    }

    /// The image after a call.
    fn call(&mut self, call: &Call) -> Image {
        let (compared, after) = self.comparer.change(&self.image, call);
        self.reached.count(name_of(call), compared.number);
        if *call == Call::End && compared.number == ACCEPTED {
            self.reached.count_events(&after);
        }
        self.note(compared.difference, || format!("{call:?}"));
        after
    }

    fn note(&mut self, difference: Option<String>, shown: impl Fn() -> String) {
        let named = |difference| format!("{}: {difference}", shown());
        self.failure = self.failure.take().or(difference.map(named));
    }
}
