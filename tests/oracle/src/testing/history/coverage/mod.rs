//! How often histories reached what they are meant to reach.

mod carried;
mod checks;
mod conversions;
mod coupled;
mod ends;
mod ends_2014;
mod event;
mod foundings;
mod openings;
mod past;
mod seasons;
mod sheets;
mod spans;
mod unchanged;

use std::collections::BTreeMap;

use crate::book::edition::EDITIONS;
use crate::book::{Book, GROUP_COUNT, PRODUCT_COUNT};
use crate::history::call::Call;
use coupled::LastEnd;
use past::Past;
use seasons::Turn;

#[derive(Clone, Default)]
pub struct Coverage {
    pub counts: BTreeMap<String, usize>,
    /// What the last opening made of each group.
    turns: [Turn; GROUP_COUNT],
    /// The products that the last opening gave new limits.
    renewed: [bool; PRODUCT_COUNT],
    /// Groups whose mark was dropped by new limits, and that have not moved by E since.
    dropped_marks: [bool; GROUP_COUNT],
    last_end: LastEnd,
    past: Past,
}

/// A call with the answer that the model gave, and the book before and after it.
pub struct Seen<'a> {
    pub before: &'a Book,
    pub answer: &'a str,
    pub after: &'a Book,
}

impl<'a> Seen<'a> {
    /// None where there was no book.
    fn new(before: Option<&'a Book>, answer: &'a str, after: Option<&'a Book>) -> Option<Seen<'a>> {
        Some(Seen {
            before: before?,
            answer,
            after: after?,
        })
    }

    /// The number of the refusal, if the call was refused.
    pub fn refusal(&self) -> Option<u32> {
        refusal(self.answer)
    }

    /// The kind of a check's answer.
    pub fn kind(&self) -> &'a str {
        kind(self.answer)
    }
}

fn refusal(answer: &str) -> Option<u32> {
    answer.strip_prefix("refused ")?.parse().ok()
}

/// The words before a span.
fn kind(answer: &str) -> &str {
    answer.split(':').next().unwrap_or_default()
}

impl Coverage {
    pub fn count(&mut self, what: impl Into<String>) {
        *self.counts.entry(what.into()).or_insert(0) += 1;
    }

    pub fn count_if(&mut self, happened: bool, what: &str) {
        if happened {
            self.count(what);
        }
    }

    /// Counts the refusals that come after the one that was given, which has to be the first that applies.
    fn count_over(&mut self, call: &str, refusal: u32, rows: &[(u32, bool)]) {
        let mut apply = rows.iter().filter(|(_, applies)| *applies);
        assert_eq!(apply.next(), Some(&(refusal, true)), "{call}");
        for (later, _) in apply {
            self.count(format!("{call}: {refusal} over {later}"));
        }
    }

    pub fn add(&mut self, other: &Coverage) {
        for (what, times) in &other.counts {
            *self.counts.entry(what.clone()).or_insert(0) += times;
        }
    }

    pub fn times(&self, what: &str) -> usize {
        self.counts.get(what).copied().unwrap_or(0)
    }

    /// Takes note of a call that the model answered.
    pub fn observe(
        &mut self,
        before: Option<&Book>,
        call: &Call,
        answer: &str,
        after: Option<&Book>,
    ) {
        let seen = Seen::new(before, answer, after);
        match (call, &seen) {
            (Call::Found(call), _) => foundings::observe(self, call, before, answer),
            (Call::Bare(numbers), _) => checks::observe_bare(self, numbers, answer),
            (_, None) => self.observe_no_book(call),
            (Call::Open(numbers), Some(seen)) => openings::observe(self, numbers, seen),
            (Call::Sheet(sheet), Some(seen)) => sheets::observe(self, sheet, seen),
            (Call::End, Some(seen)) => ends::observe(self, seen),
            (Call::Convert, Some(seen)) => conversions::observe(self, seen),
            (Call::Check(numbers), Some(seen)) => checks::observe(self, numbers, seen),
            (Call::Book, Some(seen)) => self.observe_book(seen.before),
        }
        if let Some(seen) = &seen {
            carried::observe(self, call, seen);
            unchanged::observe(self, call, seen);
            self.past.note(call, seen);
        }
    }

    fn observe_no_book(&mut self, call: &Call) {
        self.count("format: no book");
        let is_conversion = *call == Call::Convert;
        self.count_if(is_conversion, "format: no book to convert");
    }

    fn observe_book(&mut self, book: &Book) {
        self.count(book_key(book.edition));
        self.count_if(book.date.is_none(), "book: line before the first opening");
        self.count_if(book.is_open, "book: line on an open day");
        let is_part_in = book.sheets_in.iter().any(Option::is_some);
        self.count_if(is_part_in, "book: line with sheets in");
        self.count_if(
            !book.is_open && book.date.is_some(),
            "book: line after an end",
        );
        let is_marked = book.standings.iter().any(|one| one.marked);
        self.count_if(is_marked, "book: line with a mark");
        let is_full = book.windows.iter().any(|window| window.len() == 45);
        self.count_if(is_full, "book: line with a full window");
        self.count_if(
            book.is_open && self.turns.contains(&Turn::BroughtBack),
            "book: line on a day that brought a group back",
        );
    }
}

fn book_key(edition: u32) -> String {
    format!("book: line under {edition}")
}

const OWN: [&str; 14] = [
    "book: line before the first opening",
    "book: line on an open day",
    "book: line with sheets in",
    "book: line after an end",
    "book: line with a mark",
    "book: line with a full window",
    "book: line on a day that brought a group back",
    "format: no book",
    "format: no book to convert",
    "format: not a call",
    "format: blank line",
    "format: comment",
    "format: leading zeros",
    "format: last line without a newline",
];

/// All that has to be reached.
pub fn wanted() -> Vec<String> {
    let own = OWN.iter().map(|what| what.to_string());
    own.chain(EDITIONS.map(book_key))
        .chain(foundings::wanted())
        .chain(openings::wanted())
        .chain(seasons::wanted())
        .chain(sheets::wanted())
        .chain(ends::wanted())
        .chain(ends_2014::wanted())
        .chain(conversions::wanted())
        .chain(carried::wanted())
        .chain(unchanged::wanted())
        .chain(coupled::wanted())
        .chain(checks::wanted())
        .chain(spans::wanted())
        .collect()
}
