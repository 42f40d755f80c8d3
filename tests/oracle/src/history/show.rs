//! The book as one line.

use crate::book::{Book, Entry, Level, Sheet, GROUP_COUNT};

/// The line of a `book` call.
pub fn book(book: &Book) -> String {
    let [open, date, left] = day(book);
    let level = digits(book.standings.map(|one| one.level == Level::Expanded));
    let mark = digits(book.standings.map(|one| one.marked));
    let initial = joined(",", book.limits.iter().map(|one| one.initial.to_string()));
    let expanded = joined(",", book.limits.iter().map(|one| one.expanded.to_string()));
    let windows = joined(
        ";",
        book.windows
            .iter()
            .map(|window| bracket(window, u32::to_string)),
    );
    let sheets_in = joined(";", book.sheets_in.iter().map(sheet));
    let last = joined(";", book.last_ended.iter().map(sheet));
    let edition = book.edition;
    format!(
        "book open={open} date={date} left={left} level={level} mark={mark} I={initial} \
         E={expanded} windows={windows} in={sheets_in} last={last} edition={edition}"
    )
}

/// Whether a day is open, the last opened date, and left while a day is open.
fn day(book: &Book) -> [String; 3] {
    let date = match book.date {
        Some([year, month, day]) => format!("{year}-{month}-{day}"),
        None => "none".to_string(),
    };
    let left = match book.is_open {
        true => book.left.to_string(),
        false => "-".to_string(),
    };
    [u32::from(book.is_open).to_string(), date, left]
}

fn digits(flags: [bool; GROUP_COUNT]) -> String {
    joined("", flags.iter().map(|&flag| u32::from(flag).to_string()))
}

fn joined(between: &str, parts: impl Iterator<Item = String>) -> String {
    parts.collect::<Vec<String>>().join(between)
}

fn bracket<T>(items: &[T], show: impl Fn(&T) -> String) -> String {
    format!("[{}]", joined(",", items.iter().map(show)))
}

fn sheet(sheet: &Option<Sheet>) -> String {
    let pair = |entry: &Entry| format!("{}:{}", entry.month, entry.settlement);
    match sheet {
        Some(sheet) => bracket(sheet, pair),
        None => "-".to_string(),
    }
}
