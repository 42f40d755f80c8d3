//! One group's part of a program's answers.

use crate::book::GROUPS;
use crate::history::answer::CONVERTED;

/// What a line answers.
#[derive(Clone, Copy, Debug, PartialEq, Eq)]
pub enum Kind {
    Opened,
    Check,
    Ended,
    Converted,
    Book,
}

/// The part of an answer that tells of a group; None where the line is not such an answer.
pub fn part(kind: Kind, group: usize, answer: &str) -> Option<String> {
    match kind {
        Kind::Check => Some(answer.to_string()),
        Kind::Opened => {
            let renewed: Vec<&str> = answer.strip_prefix("opened ")?.split(' ').collect();
            Some(of_products(group, &renewed)?.join(" "))
        }
        Kind::Ended => {
            let mut events = answer.strip_prefix("ended ")?.split(' ');
            events.nth(group).map(str::to_string)
        }
        Kind::Converted => (answer == CONVERTED).then(|| answer.to_string()),
        Kind::Book => book_part(group, answer),
    }
}

/// Of the eight items of a field, those of the group's products.
fn of_products<'a>(group: usize, items: &[&'a str]) -> Option<Vec<&'a str>> {
    if items.len() != 8 {
        return None;
    }
    Some(
        GROUPS[group]
            .iter()
            .map(|&product| items[product])
            .collect(),
    )
}

/// Every field of a `book` line, cut down to the group.
fn book_part(group: usize, answer: &str) -> Option<String> {
    let mut fields = answer.strip_prefix("book ")?.split(' ');
    let mut field = |name: &str| fields.next()?.strip_prefix(name)?.strip_prefix('=');
    let mut parts = Vec::new();
    for name in ["open", "date", "left"] {
        parts.push(field(name)?.to_string());
    }
    for name in ["level", "mark"] {
        parts.push(field(name)?.get(group..=group)?.to_string());
    }
    for (name, between) in [
        ("I", ','),
        ("E", ','),
        ("windows", ';'),
        ("in", ';'),
        ("last", ';'),
    ] {
        let items: Vec<&str> = field(name)?.split(between).collect();
        parts.push(of_products(group, &items)?.join(";"));
    }
    parts.push(field("edition")?.to_string());
    Some(parts.join(" "))
}

#[cfg(test)]
mod tests {
    use super::*;

    const BOOK: &str = "book open=1 date=2024-6-27 left=1 level=01000 mark=00001 \
                        I=1,2,3,4,5,6,7,8 E=11,12,13,14,15,16,17,18 \
                        windows=[6000,6002];[];[7];[];[];[];[];[9] in=[24294:6000];-;-;-;-;-;-;- \
                        last=-;-;-;-;-;-;-;[1:2,3:4] edition=2014";

    #[test]
    fn the_part_of_each_group() {
        let corn = "1 2024-6-27 1 0 0 1 11 [6000,6002] [24294:6000] - 2014";
        assert_eq!(part(Kind::Book, 0, BOOK).as_deref(), Some(corn));
        let complex = "1 2024-6-27 1 1 0 2;3;4 12;13;14 [];[7];[] -;-;- -;-;- 2014";
        assert_eq!(part(Kind::Book, 1, BOOK).as_deref(), Some(complex));
        let wheats = "1 2024-6-27 1 0 0 5;6 15;16 [];[] -;- -;- 2014";
        assert_eq!(part(Kind::Book, 2, BOOK).as_deref(), Some(wheats));
        let rice = "1 2024-6-27 1 0 1 8 18 [9] - [1:2,3:4] 2014";
        assert_eq!(part(Kind::Book, 4, BOOK).as_deref(), Some(rice));
        assert_eq!(
            part(Kind::Opened, 1, "opened 0 1 0 1 0 0 0 0").as_deref(),
            Some("1 0 1")
        );
        assert_eq!(
            part(Kind::Ended, 2, "ended a b c d e").as_deref(),
            Some("c")
        );
        assert_eq!(
            part(Kind::Converted, 2, "converted").as_deref(),
            Some("converted")
        );
        let check = "within:5800:6200";
        assert_eq!(part(Kind::Check, 2, check).as_deref(), Some(check));
    }

    #[test]
    fn other_lines_have_no_part() {
        for line in ["", "no book", "book", "refused 2", "book open=1"] {
            assert_eq!(part(Kind::Book, 0, line), None);
            assert_eq!(part(Kind::Opened, 0, line), None);
            assert_eq!(part(Kind::Ended, 0, line), None);
            assert_eq!(part(Kind::Converted, 0, line), None);
        }
    }
}
