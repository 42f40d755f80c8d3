//! Comparing answers line by line.

use crate::history::call::is_passed_over;

/// Longer lines are cut in a message.
const SHOWN: usize = 240;

/// The lines of a text; a last newline begins no line.
pub fn lines(text: &[u8]) -> Vec<&[u8]> {
    let body = text.strip_suffix(b"\n").unwrap_or(text);
    if text.is_empty() {
        return Vec::new();
    }
    body.split(|&byte| byte == b'\n').collect()
}

/// The lines of a history that are answered.
pub fn answered_lines(history: &[u8]) -> Vec<&[u8]> {
    let mut lines = lines(history);
    lines.retain(|line| !is_passed_over(line));
    lines
}

/// The first difference between what was expected and what a program wrote.
pub fn difference(history: &[u8], expected: &[u8], output: &[u8]) -> Option<String> {
    if expected == output {
        return None;
    }
    let (expected, written) = (lines(expected), lines(output));
    let most = expected.len().max(written.len());
    let differs = |&place: &usize| expected.get(place) != written.get(place);
    let Some(place) = (0..most).find(differs) else {
        return Some("the answers are the same but for the last newline".to_string());
    };
    let calls = answered_lines(history);
    Some(format!(
        "answer {} to {}: expected {}, the program wrote {}",
        place + 1,
        shown(calls.get(place).copied()),
        shown(expected.get(place).copied()),
        shown(written.get(place).copied()),
    ))
}

/// A line for a message.
pub fn shown(line: Option<&[u8]>) -> String {
    let Some(line) = line else {
        return "(no line)".to_string();
    };
    let cut = &line[..line.len().min(SHOWN)];
    let dots = if cut.len() < line.len() { "..." } else { "" };
    format!("{:?}{dots}", String::from_utf8_lossy(cut))
}

#[cfg(test)]
mod tests {
    use super::*;

    #[test]
    fn lines_as_the_format_counts_them() {
        assert_eq!(lines(b""), Vec::<&[u8]>::new());
        assert_eq!(lines(b"\n"), [b""]);
        assert_eq!(lines(b"a\n\nb"), [&b"a"[..], b"", b"b"]);
        assert_eq!(answered_lines(b"# a\n\nend\n \n"), [&b"end"[..], b" "]);
    }

    #[test]
    fn the_first_difference_is_named_with_its_call() {
        let history = b"# two calls\nend\nbook\n";
        assert_eq!(difference(history, b"a\nb\n", b"a\nb\n"), None);
        let named = difference(history, b"a\nb\n", b"a\nc\n").expect("a difference");
        assert!(named.contains("answer 2 to \"book\""), "{named}");
        assert!(difference(history, b"a\nb\n", b"a\nb").is_some());
        assert!(difference(history, b"a\nb\n", b"a\n").is_some());
        assert!(difference(history, b"a\n", b"a\nb\n").is_some());
    }
}
