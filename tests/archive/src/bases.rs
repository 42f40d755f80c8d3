//! Good images to begin with, each reached by calls that were all accepted.

use std::collections::HashSet;
use std::mem::{discriminant, Discriminant};

use oracle::book::edition::{Edition, EDITIONS};
use oracle::book::end::Event;
use oracle::book::sheet::LARGEST_SHEET;
use oracle::book::window::LARGEST_WINDOW;
use oracle::book::{Book, Level, Sheet, GROUP_COUNT};
use oracle::image::{EventWords, Image};
use oracle::testing::history::calendar::calendar;
use oracle::testing::history::listing::{Collected, Custom};
use oracle::testing::history::market::Market;
use oracle::testing::history::pace::Phase;
use oracle::testing::random::Random;

pub struct Base {
    pub name: String,
    pub book: Book,
    pub image: Image,
}

const LIMITS: [u32; 8] = [200, 600, 250, 200, 240, 240, 160, 100];

/// About where the products settle, in their own units.
const PRICES: [u32; 8] = [3_600, 9_600, 4_500, 3_500, 4_480, 4_560, 2_800, 3_400];

/// Windows are full after 45 of them; groups stand as they should on some day soon after.
const MOST_DAYS: usize = 120;

/// More seeds than any base needs.
const SEEDS: u64 = 1_000;

/// Six under the edition of 2023 and three under that of 2014; the last five have the most in them.
pub fn bases() -> Vec<Base> {
    let [old, new] = EDITIONS.map(Stages::under);
    let mut random = Random::new(1);
    let first_day = opened(&new.fresh, first_day());
    let last_day = opened(&new.full, new.next);
    let calm = calmed(&mut random, &old);
    vec![
        base("fresh", &new.fresh),
        base("first day", &first_day),
        base(
            "first day, all sheets in",
            &filed(&mut random, &first_day, 8),
        ),
        base("ended, windows full, no group expanded", &calm),
        base("ended, windows full", &new.full),
        base("open, windows full", &filed(&mut random, &last_day, 3)),
        base("open, windows full, all sheets in", &new.all_in),
        base("ended, windows full", &old.full),
        base("open, windows full, all sheets in", &old.all_in),
    ]
}

/// A book under an edition, when it was fresh, once it was full, and on the day after.
struct Stages {
    fresh: Book,
    full: Book,
    /// The place of the day after.
    next: usize,
    all_in: Book,
}

impl Stages {
    fn under(edition: u32) -> Stages {
        let fresh = Book::found(edition, LIMITS).expect("fit limits");
        let (full, next) = first_of_seeds(|random| live(random, &fresh, first_day()));
        let all_in = first_of_seeds(|random| all_in(random, &full, next));
        Stages {
            fresh,
            full,
            next,
            all_in,
        }
    }
}

fn first_day() -> usize {
    calendar().place(2024, 11, 1)
}

/// The image has answers in it that only an opening and an end may write.
fn base(name: &str, book: &Book) -> Base {
    assert!(book.is_sound(), "{name}");
    let mut image = Image::of(book);
    image.renewed = [1, 0, 0, 1, 1, 0, 1, 1];
    image.events = [EventWords {
        kind: 2,
        month: 24_294,
        product: 7,
    }; GROUP_COUNT];
    Base {
        name: format!("{name}, {}", book.edition),
        book: book.clone(),
        image,
    }
}

/// One of them, more often one of those that have the most in them.
pub fn draw<'a>(random: &mut Random, bases: &'a [Base]) -> &'a Base {
    let full = bases.len() - 5;
    let from = random.pick(&[0, full, full]);
    &bases[from + random.below(bases.len() - from)]
}

fn first_of_seeds<T>(draw: impl Fn(&mut Random) -> Option<T>) -> T {
    let mut drawn = (0..SEEDS).filter_map(|seed| draw(&mut Random::new(seed)));
    drawn.next().expect("a seed reaches it")
}

/// Lives through weekdays until windows and sheets are full and groups stand as they should; with the place of the next.
fn live(random: &mut Random, fresh: &Book, first: usize) -> Option<(Book, usize)> {
    let mut book = fresh.clone();
    let mut day = first;
    for _ in 0..MOST_DAYS {
        if is_full(&book) {
            return Some((book, day));
        }
        book = filed(random, &opened(&book, day), 8);
        book.end().expect("all sheets are in");
        day = calendar().next_weekday(day);
    }
    None
}

/// Full in every place, with groups enough at each standing for every event at the next end.
fn is_full(book: &Book) -> bool {
    let at = |level| book.standings.iter().filter(move |one| one.level == level);
    let is_marked = at(Level::Expanded).any(|one| one.marked);
    let is_full_window = |window: &Vec<u32>| window.len() == LARGEST_WINDOW;
    book.windows.iter().all(is_full_window)
        && are_full_sheets(&book.last_ended)
        && at(Level::Initial).count() >= 2
        && at(Level::Expanded).count() >= 3
        && is_marked == has_marks(book)
}

fn has_marks(book: &Book) -> bool {
    Edition::of(book.edition).is_some_and(Edition::has_marks)
}

fn are_full_sheets(sheets: &[Option<Sheet>]) -> bool {
    let mut lengths = sheets
        .iter()
        .map(|sheet| sheet.as_ref().map_or(0, Vec::len));
    lengths.all(|length| length == LARGEST_SHEET)
}

/// The next day with all sheets in, each of them full too, and an end that has every event.
fn all_in(random: &mut Random, ended: &Book, day: usize) -> Option<Book> {
    let book = filed(random, &opened(ended, day), 8);
    let events = book.clone().end().expect("all sheets are in");
    let kinds: HashSet<Discriminant<Event>> = events.iter().map(discriminant).collect();
    // Without marks nothing is raised.
    let is_every = kinds.len() == 4 + usize::from(has_marks(&book));
    (are_full_sheets(&book.sheets_in) && is_every).then_some(book)
}

fn opened(book: &Book, day: usize) -> Book {
    let mut book = book.clone();
    let calendar = calendar();
    let (date, left) = (calendar.days[day], calendar.left[day]);
    let opening = book.open(date.year(), date.month(), date.day(), left);
    opening.expect("the next day can be opened");
    book
}

/// The full book after one more day, on which contracts hardly moved.
fn calmed(random: &mut Random, stages: &Stages) -> Book {
    let calm = Market {
        phase: Phase::Calm,
        ..market()
    };
    let mut book = filed_by(&calm, random, &opened(&stages.full, stages.next), 8);
    book.end().expect("all sheets are in");
    assert!(!book.has_expanded_group());
    book
}

/// The open day with so many sheets in.
fn filed(random: &mut Random, book: &Book, count: usize) -> Book {
    filed_by(&market(), random, book, count)
}

fn filed_by(market: &Market, random: &mut Random, book: &Book, count: usize) -> Book {
    let mut book = book.clone();
    let drafts = market.draft_all(random, &book);
    for sheet in drafts.iter().take(count) {
        let filing = book.file(sheet.product, &sheet.months, &sheet.settlements);
        filing.expect("a drafted sheet is accepted");
    }
    book
}

fn market() -> Market {
    let custom = |product: usize| Custom {
        contracts: LARGEST_SHEET,
        leaves_out: 1_000,
        drops_spot: 1_000,
        is_far: false,
        collected: Collected::Any,
        price: PRICES[product],
    };
    Market {
        customs: std::array::from_fn(custom),
        driver: None,
        calm: 1,
        phase: Phase::Middle,
    }
}

#[cfg(test)]
mod tests {
    use super::*;
    use crate::fields::SETTLEMENTS;
    use oracle::image::BOOK_WORDS;

    #[test]
    fn the_last_base_uses_every_place() {
        let bases = bases();
        let last = &bases.last().expect("there are bases").image;
        let mut emptied = *last;
        emptied.words_mut()[SETTLEMENTS..BOOK_WORDS].fill(u32::MAX);
        let counts = [
            last.windows.counts[0],
            last.today[7].count,
            last.last[3].count,
        ];
        assert_eq!(counts, [45, 16, 16]);
        assert_eq!(last.without_unused(), *last);
        assert_ne!(emptied, *last);
    }
}
