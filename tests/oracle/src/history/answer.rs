//! The answer to a call, as a line.

use super::call::{self, Call, FoundCall, SheetCall};
use super::show;
use crate::bare::{self, Order};
use crate::book::end::Event;
use crate::book::opening::NewLimits;
use crate::book::{Book, GROUP_COUNT};
use crate::refusal::Refusal;
use crate::verdict::{Span, Verdict};

pub const NOT_A_CALL: &str = "not a call";
pub const NO_BOOK: &str = "no book";
pub const FOUNDED: &str = "founded";
pub const FILED: &str = "filed";
pub const CONVERTED: &str = "converted";

/// Answers a line on a book, if one was founded; None where the line is passed over.
pub fn answer_line(book: &mut Option<Book>, line: &[u8]) -> Option<String> {
    if call::is_passed_over(line) {
        return None;
    }
    Some(match call::parse(line) {
        Some(call) => answer(book, &call),
        None => NOT_A_CALL.to_string(),
    })
}

/// Answers a call on a book, if one was founded.
pub fn answer(book: &mut Option<Book>, call: &Call) -> String {
    let outcome = match call {
        Call::Found(call) => found(book, call),
        Call::Open([year, month, day, left]) => on(book, |book| {
            book.open(*year, *month, *day, *left).map(opened)
        }),
        Call::Sheet(sheet) => on(book, |book| file(book, sheet)),
        Call::End => on(book, |book| book.end().map(ended)),
        Call::Convert => on(book, |book| book.convert().map(|()| CONVERTED.to_string())),
        Call::Check([product, size, month, price]) => on(book, |book| {
            book.check(*product, *size, *month, *price).map(verdict)
        }),
        Call::Bare(numbers) => bare::check(&Order::from(*numbers)).map(verdict),
        Call::Book => on(book, |book| Ok(show::book(book))),
    };
    outcome.unwrap_or_else(|refusal| refused(refusal.number()))
}

fn found(book: &mut Option<Book>, call: &FoundCall) -> Result<String, Refusal> {
    *book = Some(Book::found(call.edition, call.limits)?);
    Ok(FOUNDED.to_string())
}

/// Answers a call that needs a book.
fn on(
    book: &mut Option<Book>,
    call: impl FnOnce(&mut Book) -> Result<String, Refusal>,
) -> Result<String, Refusal> {
    match book {
        Some(book) => call(book),
        None => Ok(NO_BOOK.to_string()),
    }
}

fn file(book: &mut Book, call: &SheetCall) -> Result<String, Refusal> {
    book.file(call.product, &call.months, &call.settlements)?;
    Ok(FILED.to_string())
}

/// The line of an accepted opening.
pub fn opened(renewed: NewLimits) -> String {
    words("opened", renewed.map(|one| u32::from(one).to_string()))
}

/// The line of an accepted end.
pub fn ended(events: [Event; GROUP_COUNT]) -> String {
    words("ended", events.map(event))
}

/// The line of a refused call.
pub fn refused(number: u32) -> String {
    format!("refused {number}")
}

fn words(first: &str, others: impl IntoIterator<Item = String>) -> String {
    let mut line = first.to_string();
    for other in others {
        line.push(' ');
        line.push_str(&other);
    }
    line
}

fn event(event: Event) -> String {
    match event {
        Event::Quiet => "quiet".to_string(),
        Event::Reverted => "reverted".to_string(),
        Event::Triggered(lead) => format!("triggered:{}:{}", lead.month, lead.product),
        Event::Held(lead) => format!("held:{}:{}", lead.month, lead.product),
        Event::Raised(lead) => format!("raised:{}:{}", lead.month, lead.product),
    }
}

/// The line of an accepted check.
pub fn verdict(verdict: Verdict) -> String {
    match verdict {
        Verdict::Free => "free".to_string(),
        Verdict::Within(span) => with_span("within", span),
        Verdict::Below(span) => with_span("below", span),
        Verdict::Above(span) => with_span("above", span),
    }
}

fn with_span(kind: &str, Span { lowest, highest }: Span) -> String {
    format!("{kind}:{lowest}:{highest}")
}
