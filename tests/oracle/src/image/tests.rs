//! The layout by the header's words, images there and back, and what each call leaves in one.

use super::*;
use crate::book::by_hand::{open_book, open_book_under, Trial, EXPANDED, JULY, LIMITS, MARKED};
use crate::book::edition::EDITIONS;
use crate::book::Book;
use crate::tally::Tally;
use crate::testing::old_image::OLD_FORMATS;

/// Words that no call may write, since no call answers them.
const KEPT: [u32; 8] = [7, 0, 1, 2, 3, 4, 5, u32::MAX];

fn damaged(damage: impl Fn(&mut Image)) -> Image {
    let mut image = Image::of(&open_book());
    image.renewed = KEPT;
    damage(&mut image);
    image
}

/// Every call but a founding answers 1 and leaves the very words.
fn assert_unsound(image: &Image, what: &str) {
    let mut after = *image;
    assert_eq!(after.open([2024, 6, 28, 0]), 1, "{what}");
    assert_eq!(after.sheet(9, &[], &[]), 1, "{what}");
    assert_eq!(after.end(), 1, "{what}");
    assert_eq!(after.convert(), 1, "{what}");
    assert_eq!(span(&after, [9, 9, 0, 0]), [1, 0, 0], "{what}");
    assert_eq!(after, *image, "{what}");
}

/// A check's number and its ends.
fn span(image: &Image, order: [u32; 4]) -> [u32; 3] {
    let words = image.check_span(order);
    assert_eq!(image.check(order), words.answer);
    [words.answer, words.lowest, words.highest]
}

#[test]
fn fields_lie_where_the_header_says() {
    let offsets = [
        (offset_of!(Image, format), 0),
        (offset_of!(Image, edition), 1),
        (offset_of!(Image, is_open), 2),
        (offset_of!(Image, year), 3),
        (offset_of!(Image, month), 4),
        (offset_of!(Image, day), 5),
        (offset_of!(Image, left), 6),
        (offset_of!(Image, limits), 7),
        (offset_of!(Image, standings), 23),
        (offset_of!(Image, windows.counts), 33),
        (offset_of!(Image, windows.settlements), 41),
        (offset_of!(Image, today), 401),
        (offset_of!(Image, last), 665),
        (offset_of!(Image, renewed), 929),
        (offset_of!(Image, events), 937),
        (size_of::<Image>(), 952),
    ];
    for (offset, word) in offsets {
        assert_eq!(offset, 4 * word);
    }
}

#[test]
fn a_book_is_read_as_it_was_written() {
    for book in EDITIONS.into_iter().flat_map(books) {
        assert_eq!(Image::of(&book).book(), Some(book));
    }
}

#[test]
fn another_format_or_flag_holds_no_book() {
    assert_unsound(&Image::from_words([0; WORDS]), "zeros");
    assert_unsound(&Image::from_words([1; WORDS]), "ones");
    assert_unsound(&Image::from_words([FORMAT; WORDS]), "threes");
    for word in [0, 1, 2, 4, 1 << 24, u32::MAX] {
        let image = damaged(|image| image.format = word);
        assert_eq!(image.book(), None, "format {word}");
        assert_unsound(&image, "format");
    }
    for word in [2, 256, u32::MAX] {
        let flags = [
            damaged(|image| image.is_open = word),
            damaged(|image| image.standings[0].expanded = word),
            damaged(|image| image.standings[GROUP_COUNT - 1].marked = word),
        ];
        for image in flags {
            assert_eq!(image.book(), None, "flag {word}");
            assert_unsound(&image, "flag");
        }
    }
}

/// A fresh book, one after an end, one with some sheets in and one with all.
fn books(edition: u32) -> [Book; 4] {
    let mut trial = Trial::under(edition, LIMITS);
    let ended = trial.book.clone();
    trial.open();
    (0..8).for_each(|product| trial.file(product));
    let fresh = Book::found(edition, LIMITS).expect("fit limits");
    [fresh, ended, open_book_under(edition), trial.book]
}

/// Every book as an image of today's format, and laid out by each of the old ones.
fn laid_out() -> impl Iterator<Item = (u32, Image, Image)> {
    let images = EDITIONS
        .into_iter()
        .flat_map(books)
        .map(|book| Image::of(&book));
    images.flat_map(|image| {
        OLD_FORMATS.map(|format| {
            let words = format.lay_out(&image);
            let held = *words.first_chunk().expect("there is room for an image");
            (format.number, image, Image::from_words(held))
        })
    })
}

#[test]
fn an_image_of_an_old_format_is_refused_whatever_else_it_holds() {
    for (format, image, old) in laid_out() {
        let renumbered = Image { format, ..image };
        for old in [renumbered, old] {
            assert_eq!(old.book(), None);
            assert_unsound(&old, "an old format");
            assert_founds_afresh(old);
        }
    }
}

/// Where the edition lies now, an image said whether a day is open.
#[test]
fn an_old_image_with_todays_format_is_of_no_edition() {
    for (_, image, old) in laid_out() {
        let renumbered = Image {
            format: FORMAT,
            ..old
        };
        assert_eq!(renumbered.edition, image.is_open);
        assert_unsound(&renumbered, "an old image");
    }
}

#[test]
fn an_image_has_an_edition_and_2014_no_mark() {
    for edition in [0, 1, 3, 2013, 2015, 2022, 2024, 2014 << 16, u32::MAX] {
        let image = damaged(|image| image.edition = edition);
        assert!(image.book().is_some_and(|book| book.edition == edition));
        assert_unsound(&image, "neither edition");
    }
    for (edition, standing, is_sound) in [
        (2023, MARKED, true),
        (2023, EXPANDED, true),
        (2014, MARKED, false),
        (2014, EXPANDED, true),
    ] {
        let image = damaged(|image| {
            image.edition = edition;
            image.standings[2].expanded = 1;
            image.standings[2].marked = u32::from(standing.marked);
        });
        let book = image.book().expect("flags and format are true");
        assert_eq!((book.is_sound(), book.standings[2]), (is_sound, standing));
        if !is_sound {
            assert_unsound(&image, "2014 with a mark");
        }
    }
}

/// One Corn contract at I, which triggers under the edition of 2023 alone.
#[test]
fn an_image_follows_the_rule_of_the_edition_in_it() {
    let mut trial = Trial::under(2014, LIMITS);
    trial.open();
    trial.settlements[0][0] += 200;
    (0..8).for_each(|product| trial.file(product));
    for (edition, kind) in [(2014, 0), (2023, 1)] {
        let mut image = Image::of(&trial.book);
        image.edition = edition;
        assert_eq!((image.end(), image.edition), (0, edition));
        assert_eq!(
            (image.events[0].kind, image.standings[0].expanded),
            (kind, kind)
        );
    }
}

/// The calls that some of the books would accept are refused, too; a founding is not.
fn assert_founds_afresh(old: Image) {
    let mut after = old;
    let mut tally = Tally::default();
    assert_eq!(after.open([2024, 6, 4, 26]), 1);
    assert_eq!(after.sheet(1, &[JULY], &[6_000]), 1);
    assert_eq!(after.convert(), 1);
    assert_eq!(span(&after, [0, 0, JULY, 6_000]), [1, 0, 0]);
    assert_eq!(after.tallied_check(&mut tally, [0, 0, JULY, 6_000]), 1);
    assert_eq!((tally.asked, tally.refused), (1, 1));
    assert_eq!(after.found(2, [1; 8]), 17);
    assert_eq!(after.found(2023, [1; 8]), 13);
    assert_eq!(after, old);
    assert_eq!(after.found(2014, LIMITS), 0);
    assert_eq!(
        after,
        Image::of(&Book::found(2014, LIMITS).expect("fit limits"))
    );
}

#[test]
fn counts_beyond_their_places_are_unsound() {
    for beyond in [46, 1 << 16, u32::MAX] {
        let images = [
            damaged(|image| image.windows.counts[3] = beyond),
            damaged(|image| image.today[7].count = beyond),
            damaged(|image| image.last[0].count = beyond),
        ];
        for image in images {
            assert!(image.book().is_some_and(|book| !book.is_sound()));
            assert_unsound(&image, "count");
        }
    }
    assert_unsound(&damaged(|image| image.today[7].count = 17), "17 contracts");
}

#[test]
fn a_date_is_none_where_all_its_words_are_0() {
    let mut fresh = Image::of(&Book::found(2023, LIMITS).expect("fit limits"));
    assert_eq!(fresh.book().and_then(|book| book.date), None);
    fresh.day = 1;
    assert_unsound(&fresh, "a day alone");
    fresh.day = 0;
    fresh.left = 1;
    assert_unsound(&fresh, "left alone");
}

#[test]
fn places_from_a_count_on_mean_nothing() {
    let image = damaged(|image| {
        image.windows.settlements[1][1..].fill(u32::MAX);
        image.today[1].contracts[0].month = 5;
        image.last[0].contracts[10].settlement = 3;
    });
    assert_eq!(image.book(), Some(open_book()));
    assert_ne!(image.without_unused(), image);
    assert_eq!(image.without_unused(), damaged(|_| ()).without_unused());
}

#[test]
fn a_founding_looks_at_nothing_and_leaves_zeros() {
    let mut image = Image::from_words([u32::MAX; WORDS]);
    let before = image;
    assert_eq!(image.found(2023, [1; 8]), 13);
    assert_eq!(image.found(2015, LIMITS), 17);
    assert_eq!(image, before);
    assert_eq!(image.found(2023, LIMITS), 0);
    assert_eq!(
        image,
        Image::of(&Book::found(2023, LIMITS).expect("fit limits"))
    );
    assert_eq!(
        (image.renewed, image.new_limits()),
        ([0; 8], Some([false; 8]))
    );
}

#[test]
fn an_opening_sets_renewed_alone() {
    let mut book = Trial::new(LIMITS).book;
    book.date = Some([2024, 10, 31]);
    book.left = 0;
    book.windows[7] = vec![3_000; 45];
    let mut image = Image::of(&book);
    image.renewed = KEPT;
    image.events[0].kind = 77;
    assert_eq!(image.open([2024, 11, 1, 20]), 0);
    assert_eq!(image.renewed, [0, 0, 0, 0, 0, 0, 0, 1]);
    assert_eq!(image.events[0].kind, 77);
    assert_eq!((image.is_open, image.year, image.left), (1, 2024, 20));
    assert_eq!(image.limits[7].initial, 210);
}

#[test]
fn an_end_sets_events_alone_and_moves_the_sheets() {
    let mut trial = Trial::new(LIMITS);
    trial.book.standings[0] = MARKED;
    trial.open();
    trial.settlements[0][9] += 320;
    trial.settlements[2][1] += 200;
    (0..8).for_each(|product| trial.file(product));
    let mut image = Image::of(&trial.book);
    image.renewed = KEPT;
    assert_eq!(image.end(), 0);
    let lead = |place: usize, product: usize| trial.months[product][place];
    let words = |kind, month, product| EventWords {
        kind,
        month,
        product,
    };
    assert_eq!(image.events[0], words(4, lead(9, 0), 0));
    assert_eq!(image.events[1], words(1, lead(1, 2), 2));
    assert_eq!(image.events[2], words(0, 0, 0));
    assert_eq!(image.renewed, KEPT);
    assert_eq!(image.last, Image::of(&trial.book).today);
    assert!(image.today.iter().all(|sheet| sheet.count == 0));
    assert_eq!((image.is_open, image.day), (0, 4));
}

/// An image with anything in the places from a count on, and in what the last calls answered.
fn scattered(book: &Book) -> Image {
    let mut image = Image::of(book);
    image.renewed = KEPT;
    image.events[1].kind = 77;
    let WindowWords {
        counts,
        settlements,
    } = &mut image.windows;
    for (count, places) in counts.iter().zip(settlements) {
        unused(places, *count).fill(u32::MAX);
    }
    let anything = ContractWords {
        month: 5,
        settlement: 3,
    };
    for sheet in image.today.iter_mut().chain(&mut image.last) {
        unused(&mut sheet.contracts, sheet.count).fill(anything);
    }
    image
}

#[test]
fn a_conversion_writes_the_edition_alone() {
    for edition in EDITIONS {
        let [fresh, ended, ..] = books(edition);
        for book in [fresh, ended] {
            let image = scattered(&book);
            let carried = Image {
                edition: 2023,
                ..image
            };
            let mut after = image;
            assert_eq!((after.convert(), after), (0, carried));
            assert_eq!((after.convert(), after), (0, carried));
        }
    }
}

#[test]
fn a_refused_conversion_leaves_every_word() {
    let [_, ended, some_in, all_in] = books(2014).map(|book| scattered(&book));
    let expanded = |mut image: Image| {
        image.standings[3].expanded = 1;
        image
    };
    for (image, number) in [
        (some_in, 2),
        (all_in, 2),
        (expanded(some_in), 2),
        (expanded(ended), 18),
    ] {
        let mut after = image;
        assert_eq!((after.convert(), after), (number, image));
    }
    let expanded_2023 = Image {
        edition: 2023,
        ..expanded(ended)
    };
    let mut after = expanded_2023;
    assert_eq!((after.convert(), after), (0, expanded_2023));
}

#[test]
fn words_that_no_call_answers_are_no_answer() {
    assert_eq!(damaged(|_| ()).new_limits(), None);
    assert!(damaged(|_| ()).last_events().is_some());
    assert_eq!(
        damaged(|image| image.events[2].kind = 5).last_events(),
        None
    );
    assert_eq!(
        damaged(|image| image.events[2].month = 5).last_events(),
        None
    );
}

#[test]
fn a_check_has_the_ends_of_todays_limit() {
    let image = damaged(|_| ());
    assert_eq!(span(&image, [0, 0, JULY, 6_202]), [103, 5_800, 6_200]);
    let expanded = damaged(|image| image.standings[0].expanded = 1);
    assert_eq!(span(&expanded, [0, 0, JULY, 6_202]), [101, 5_680, 6_320]);
    let low = damaged(|image| image.last[0].contracts[0].settlement = 100);
    assert_eq!(span(&low, [0, 0, JULY, 302]), [103, 2, 300]);
    assert_eq!(span(&low, [0, 1, JULY, 301]), [103, 1, 300]);
    let high = damaged(|image| image.last[0].contracts[0].settlement = 999_900);
    assert_eq!(span(&high, [0, 0, JULY, 2]), [102, 999_700, 1_000_000]);
    assert_eq!(span(&image, [0, 0, JULY, 6_201]), [8, 0, 0]);
    let spot = damaged(|image| image.left = 1);
    assert_eq!(span(&spot, [0, 0, JULY, 6_202]), [100, 0, 0]);
}

#[test]
fn a_check_through_a_tally_counts_the_books_own_1() {
    let mut tally = Tally::default();
    let image = damaged(|_| ());
    assert_eq!(image.tallied_check(&mut tally, [0, 0, JULY, 6_200]), 101);
    let unsound = damaged(|image| image.left = 27);
    assert_eq!(unsound.tallied_check(&mut tally, [0, 0, JULY, 6_200]), 1);
    assert_eq!((tally.asked, tally.within, tally.refused), (2, 1, 1));
    tally.asked = 3;
    assert_eq!(image.tallied_check(&mut tally, [0, 0, JULY, 6_200]), 1);
    assert_eq!((tally.asked, tally.within, tally.refused), (3, 1, 1));
}
