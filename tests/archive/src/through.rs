//! A history through the archive, call by call, its image in bytes between calls.

use oracle::bare::Order;
use oracle::book::Book;
use oracle::history::answer::{self, answer_line, CONVERTED, FILED, FOUNDED, NOT_A_CALL, NO_BOOK};
use oracle::history::call::{self, Call};
use oracle::history::show;
use oracle::image::calls::ACCEPTED;
use oracle::image::{Image, WORDS};
use oracle::testing::history::compare::{lines, shown};
use oracle::verdict::{Span, SpanWords, Verdict};

use crate::archive::{self, Archive};
use crate::compare::different_word;
use crate::memory::image_in;
use crate::noise::{bytes_of, words_of};
use crate::reached::UNSOUND;

/// How many words stand before and after a buffer's image, at most.
const BESIDE: usize = 4;

/// What a check returns where there is no book.
const NO_BOOK_SPAN: SpanWords = SpanWords {
    answer: UNSOUND,
    lowest: 0,
    highest: 0,
};

/// What a history came to.
#[derive(Default)]
pub struct Outcome {
    pub calls: usize,
    pub failure: Option<String>,
}

/// The archive with the image of one history.
struct Through<'a> {
    archive: &'a mut Archive,
    /// The image as a file would hold it; zeros before a founding.
    bytes: Vec<u8>,
    is_founded: bool,
    turn: usize,
}

/// Compares every answer, and after it the whole book, with the second implementation's.
pub fn compare(archive: &mut Archive, history: &[u8]) -> Outcome {
    let mut through = Through {
        archive,
        bytes: vec![0; 4 * WORDS],
        is_founded: false,
        turn: 0,
    };
    let mut book = None;
    let mut outcome = Outcome::default();
    for line in lines(history) {
        let Some(expected) = answer_line(&mut book, line) else {
            continue;
        };
        outcome.calls += 1;
        let failure = through.difference(line, &expected, book.as_ref());
        if let Some(failure) = failure {
            outcome.failure = Some(format!("{}: {failure}", shown(Some(line))));
            return outcome;
        }
    }
    outcome
}

impl Through<'_> {
    fn difference(&mut self, line: &[u8], expected: &str, book: Option<&Book>) -> Option<String> {
        let answer = match call::parse(line) {
            Some(call) => self.answer(&call),
            None => NOT_A_CALL.to_string(),
        };
        if answer != expected {
            return Some(format!(
                "{expected:?} expected, the archive answers {answer:?}"
            ));
        }
        different_book(book?, &self.image())
    }

    fn image(&self) -> Image {
        Image::from_words(words_of(&self.bytes))
    }

    /// The line that answers a call.
    fn answer(&mut self, call: &Call) -> String {
        match call {
            Call::Bare(numbers) => checked(archive::bare(&Order::from(*numbers))),
            Call::Check(order) => self.check(*order),
            Call::Book if !self.is_founded => NO_BOOK.to_string(),
            Call::Book => match self.image().book() {
                Some(book) => show::book(&book),
                None => "an image without a book".to_string(),
            },
            call => self.answer_by_number(call),
        }
    }

    /// A check and the same with its span, which have to answer alike.
    fn check(&mut self, order: [u32; 4]) -> String {
        match self.lend(|_, image| archive::checks(image, order)) {
            Ok((number, span)) if number != span.answer => format!("{number}, and then {span:?}"),
            Ok((_, NO_BOOK_SPAN)) if !self.is_founded => NO_BOOK.to_string(),
            Ok((_, span)) => checked(span),
            Err(message) => message,
        }
    }

    fn answer_by_number(&mut self, call: &Call) -> String {
        let number = match self.lend(|archive, image| archive.call(image, call)) {
            Ok(number) => number,
            Err(message) => return message,
        };
        let is_founding = matches!(call, Call::Found(_));
        if !is_founding && !self.is_founded {
            return match number {
                UNSOUND => NO_BOOK.to_string(),
                _ => format!("{number} without a book"),
            };
        }
        self.is_founded |= is_founding && number == ACCEPTED;
        match number {
            ACCEPTED => self.accepted(call),
            _ => answer::refused(number),
        }
    }

    fn accepted(&self, call: &Call) -> String {
        let image = self.image();
        let line = match call {
            Call::Found(_) => Some(FOUNDED.to_string()),
            Call::Open(_) => image.new_limits().map(answer::opened),
            Call::Sheet(_) => Some(FILED.to_string()),
            Call::End => image.last_events().map(answer::ended),
            Call::Convert => Some(CONVERTED.to_string()),
            Call::Check(_) | Call::Bare(_) | Call::Book => {
                panic!("{call:?} returns no such number")
            }
        };
        line.unwrap_or_else(|| "accepted, but with words that are no answer".to_string())
    }

    /// Reads the image into a new buffer, makes calls there, and writes the image out again.
    fn lend<T>(&mut self, act: impl FnOnce(&mut Archive, &mut Image) -> T) -> Result<T, String> {
        self.turn += 1;
        let pattern = [0, 1, u32::MAX, 0xA5A5_A5A5, 24_294][self.turn % 5];
        let before = self.turn % BESIDE;
        let mut buffer = vec![pattern; WORDS + 2 * BESIDE];
        let room = &mut buffer[before..before + WORDS];
        room.copy_from_slice(&words_of(&self.bytes));
        let image = image_in(room);
        let outcome = act(self.archive, image);
        self.bytes = bytes_of(image);
        let mut beside = buffer[..before].iter().chain(&buffer[before + WORDS..]);
        match beside.all(|&word| word == pattern) {
            true => Ok(outcome),
            false => Err("the archive wrote beside the image".to_string()),
        }
    }
}

/// The first field that holds something else than the book; what the last calls answered is no part of it.
fn different_book(book: &Book, held: &Image) -> Option<String> {
    let mut expected = Image::of(book);
    expected.renewed = held.renewed;
    expected.events = held.events;
    different_word(&expected, &held.without_unused())
}

/// The line of what a check returns; without a limit its ends have to be 0.
fn checked(words: SpanWords) -> String {
    let SpanWords {
        answer,
        lowest,
        highest,
    } = words;
    let span = Span { lowest, highest };
    match (answer, lowest, highest) {
        (101, ..) => answer::verdict(Verdict::Within(span)),
        (102, ..) => answer::verdict(Verdict::Below(span)),
        (103, ..) => answer::verdict(Verdict::Above(span)),
        (100, 0, 0) => answer::verdict(Verdict::Free),
        (number, 0, 0) => answer::refused(number),
        _ => format!("{words:?}"),
    }
}
