//! Every call on images of four kinds.

use oracle::book::groups::COUPLED;
use oracle::book::window::LARGEST_WINDOW;
use oracle::book::{Book, Level, GROUPS, GROUP_COUNT};
use oracle::history::call::Call;
use oracle::image::calls::ACCEPTED;
use oracle::image::{Image, BOOK_WORDS, WORDS};
use oracle::prices::LARGEST_PRICE;
use oracle::products::product;
use oracle::testing::random::Random;
use oracle::testing::score::Score;
use oracle::verdict::SpanWords;

use crate::bases::{self, Base};
use crate::compare::{Compared, Comparer};
use crate::draw;
use crate::fields::{Field, PARTS};
use crate::noise;
use crate::odd;
use crate::reached::{
    Reached, ANSWERS, BACK_BY, BROUGHT_BACK, CONVERTED_FROM, ENDS, FIRST, LED_BY, NONE_FULL,
    OUTCOMES, OVER_UNSOUND, SAME_SEASON, SKIPPED, TURNS, UNSOUND,
};
use crate::values::wrong_values;

const SEED: u64 = 20_241_101;

/// Of each kind that is drawn.
const DRAWN: usize = 20_000;

/// Every answer of every call has to be reached so often, by the images of each kind.
const LEAST: u64 = 20;

/// The images of one kind, and what came of the calls on them.
struct Run<'a> {
    comparer: &'a mut Comparer,
    random: Random,
    images: usize,
    calls: usize,
    differences: usize,
    first: Option<String>,
    reached: Reached,
}

impl<'a> Run<'a> {
    fn new(comparer: &'a mut Comparer) -> Run<'a> {
        Run {
            comparer,
            random: Random::new(SEED),
            images: 0,
            calls: 0,
            differences: 0,
            first: None,
            reached: Reached::default(),
        }
    }

    /// Makes every call on an image, and gives what its check returns.
    fn image(&mut self, image: &Image, book: &Book, name: impl Fn() -> String) -> u32 {
        self.images += 1;
        for call in draw::changes(&mut self.random, book) {
            self.change(image, &call, &name);
        }
        let order = draw::order(&mut self.random, book);
        let (checked, span) = self.comparer.check(image, order);
        let number = checked.number;
        self.note_span(order, span);
        self.note("check", checked, || {
            format!("check {order:?} on {}", name())
        });
        let order = draw::order(&mut self.random, book);
        let mut tally = draw::sound_tally(&mut self.random);
        let tallied = self.comparer.tallied(&mut tally, image, order);
        self.note("tallied check", tallied, || {
            format!("tallied check {order:?} on {}", name())
        });
        number
    }

    fn change(&mut self, image: &Image, call: &Call, name: impl Fn() -> String) {
        let (compared, after) = self.comparer.change(image, call);
        match (call, compared.number) {
            (_, ACCEPTED) => self.note_outcome(call, image, &after),
            (Call::Convert, number) => self.reached.count_over(image, number),
            _ => {}
        }
        self.note(name_of(call), compared, || {
            format!("{call:?} on {}", name())
        });
    }

    fn note_outcome(&mut self, call: &Call, before: &Image, after: &Image) {
        match call {
            Call::Open(_) => self.note_opened(before, after),
            Call::End => self.note_ended(after),
            Call::Convert => self.reached.count(CONVERTED_FROM.0, before.edition),
            _ => {}
        }
    }

    fn note_ended(&mut self, after: &Image) {
        self.reached.count_events(after);
        for (group, (led_by, _)) in COUPLED.into_iter().zip(LED_BY) {
            let event = after.events[group];
            if event.month != 0 {
                self.reached.count(led_by, event.product);
            }
        }
    }

    fn note_opened(&mut self, before: &Image, after: &Image) {
        (after.renewed.iter()).for_each(|&one| self.reached.count("renewed", one));
        let books = before.book().zip(after.book());
        let (before, after) = books.expect("an accepted opening leaves a book");
        (0..GROUP_COUNT).for_each(|group| self.note_turn(&before, &after, group));
    }

    /// What came of a group that was expanded before an opening.
    fn note_turn(&mut self, before: &Book, after: &Book, group: usize) {
        let standing = before.standings[group];
        if standing.level == Level::Initial {
            return;
        }
        let is_full = |&&product: &&usize| before.windows[product].len() == LARGEST_WINDOW;
        let full = GROUPS[group].iter().filter(is_full).count();
        let Some(turn) = turn(before, after, full) else {
            return;
        };
        self.reached.count(turn, u32::from(standing.marked));
        let place = COUPLED.iter().position(|&coupled| coupled == group);
        if let (Some(place), BROUGHT_BACK) = (place, turn) {
            self.reached.count(BACK_BY[place].0, full as u32);
        }
    }

    /// A free or refused check has no span.
    fn note_span(&mut self, [number, size, ..]: [u32; 4], span: SpanWords) {
        if span.highest == 0 {
            return;
        }
        let tick = product(number).and_then(|row| row.tick(size));
        let is_first = u32::from(Some(span.lowest) == tick);
        let is_last = u32::from(span.highest == LARGEST_PRICE);
        self.reached.count("lowest is first", is_first);
        self.reached.count("highest is last", is_last);
    }

    fn note(&mut self, call: &'static str, compared: Compared, shown: impl Fn() -> String) {
        self.calls += 1;
        self.reached.count(call, compared.number);
        if let Some(difference) = compared.difference {
            self.differences += 1;
            self.first
                .get_or_insert_with(|| format!("{}: {difference}", shown()));
        }
    }

    /// Two tests: that nothing differed, and that every answer was reached, 1 only where images can be unsound.
    fn score(self, kind: &str, can_be_unsound: bool, score: &mut Score) {
        let first = self.first.unwrap_or_default();
        let failure = format!("{} differ, the first: {first}", self.differences);
        score.one(
            &format!("{} {kind}, {} calls", self.images, self.calls),
            (self.differences > 0).then_some(failure),
        );
        let calls = self.reached.judge(&ANSWERS, |number, times| match number {
            UNSOUND if !can_be_unsound => times == 0,
            _ => times >= LEAST,
        });
        let over = self.reached.judge(&[OVER_UNSOUND], |_, times| {
            !can_be_unsound || times >= LEAST
        });
        let outcomes = self.reached.judge(&OUTCOMES, |_, times| times >= LEAST);
        // Damage seldom moves a settlement to where prices begin or end, and what it damages has all windows full or none.
        let is_enough = |_, times| can_be_unsound || times >= LEAST;
        let ends = self.reached.judge(&ENDS, is_enough);
        let turns = self.reached.judge(&TURNS, is_enough);
        let back = self.reached.judge(&BACK_BY, is_enough);
        let leads = self.reached.judge(&LED_BY, is_enough);
        score.one(
            &format!("{kind} reach every answer"),
            calls
                .or(over)
                .or(outcomes)
                .or(ends)
                .or(turns)
                .or(back)
                .or(leads),
        );
    }
}

/// The kind of an opening for a group with so many full windows, if it has to be reached.
fn turn(before: &Book, after: &Book, full: usize) -> Option<&'static str> {
    let season = |book: &Book| book.last_opened().map(|(date, _)| date.season());
    let now = season(after)?;
    let seasons = season(before).map(|last| now - last);
    match (seasons, full) {
        (Some(1), 0) => Some(NONE_FULL),
        (_, 0) => None,
        (Some(0), _) => Some(SAME_SEASON),
        (Some(1), _) => Some(BROUGHT_BACK),
        (Some(_), _) => Some(SKIPPED),
        (None, _) => Some(FIRST),
    }
}

pub fn name_of(call: &Call) -> &'static str {
    match call {
        Call::Found(_) => "found",
        Call::Open(_) => "open",
        Call::Sheet(_) => "sheet",
        Call::End => "end",
        Call::Convert => "convert",
        Call::Check(_) => "check",
        Call::Bare(_) | Call::Book => "no call on a book",
    }
}

/// Draws an image, and a sound book that calls on it are drawn from.
type Draw = fn(&mut Random, &[Base]) -> (Image, Book);

/// What is drawn, and whether it can be unsound.
const KINDS: [(&str, bool, Draw); 3] = [
    ("images with two wrong words", true, two_wrong_words),
    ("images of random bytes", true, noise::image),
    ("sound images that no calls make", false, |random, _| {
        odd::image(random)
    }),
];

pub fn compare(comparer: &mut Comparer, bases: &[Base], score: &mut Score) {
    one_wrong_word(comparer, bases, score);
    for (name, can_be_unsound, draw) in KINDS {
        let mut run = Run::new(comparer);
        let mut random = Random::new(SEED);
        for number in 0..DRAWN {
            let (image, book) = draw(&mut random, bases);
            run.image(&image, &book, || format!("number {number}"));
        }
        run.score(name, can_be_unsound, score);
    }
}

/// Every word of every base, with each of its wrong values.
fn one_wrong_word(comparer: &mut Comparer, bases: &[Base], score: &mut Score) {
    let mut run = Run::new(comparer);
    let mut refused = [0; WORDS];
    for base in bases {
        for (word, refused) in refused.iter_mut().enumerate() {
            for value in wrong_values(&base.image, word) {
                let mut image = base.image;
                image.words_mut()[word] = value;
                let name = || format!("{} with {:?} {value}", base.name, Field::of(word));
                let number = run.image(&image, &base.book, name);
                *refused += usize::from(number == UNSOUND);
            }
        }
    }
    run.score("images with one wrong word", true, score);
    score.one(
        "each word of the book is refused for some value, and no other",
        not_judged(&refused),
    );
}

/// The words that are never refused though they hold the book, or refused though they do not.
fn not_judged(refused: &[usize; WORDS]) -> Option<String> {
    let wrong = (0..WORDS).filter(|&word| (refused[word] > 0) != (word < BOOK_WORDS));
    let wrong: Vec<String> = wrong.map(|word| format!("{:?}", Field::of(word))).collect();
    (!wrong.is_empty()).then(|| format!("not {}", wrong.join(", ")))
}

fn two_wrong_words(random: &mut Random, bases: &[Base]) -> (Image, Book) {
    let base = bases::draw(random, bases);
    let mut image = base.image;
    for _ in 0..2 {
        let word = word_of_some_part(random);
        let values = wrong_values(&image, word);
        image.words_mut()[word] = random.pick(&values);
    }
    (image, base.book.clone())
}

/// Small parts are drawn as often as large ones.
fn word_of_some_part(random: &mut Random) -> usize {
    let part = random.below(PARTS.len());
    let end = PARTS.get(part + 1).copied().unwrap_or(BOOK_WORDS);
    PARTS[part] + random.below(end - PARTS[part])
}
