//! Stored cases: a season file in a text form that a person can review.
//!
//! See tests/season/README.md for the form.

use crate::dates::Date;

/// An input and the line that answers it.
#[derive(Debug, PartialEq, Eq)]
pub struct Case {
    pub input: Vec<u8>,
    /// With its newline.
    pub expected: String,
}

/// Reads a case; the error names the line.
pub fn parse(text: &str) -> Result<Case, String> {
    let mut input = Vec::new();
    let mut expected = None;
    for (index, line) in text.lines().enumerate() {
        let line = without_comment(line);
        let outcome = match line.strip_prefix("expect ") {
            Some(answer) => expect(&mut expected, answer.trim()),
            None => extend(&mut input, line),
        };
        outcome.map_err(|error| format!("line {}: {error}", index + 1))?;
    }
    let expected = expected.ok_or("there is no expect line")?;
    Ok(Case { input, expected })
}

fn without_comment(line: &str) -> &str {
    line.split('#').next().unwrap_or_default().trim()
}

fn expect(expected: &mut Option<String>, answer: &str) -> Result<(), String> {
    if expected.is_some() {
        return Err("a second expect line".to_string());
    }
    *expected = Some(format!("{answer}\n"));
    Ok(())
}

/// Does what a line says to the bytes so far.
fn extend(input: &mut Vec<u8>, line: &str) -> Result<(), String> {
    let mut parts = line.split_whitespace();
    let Some(command) = parts.next() else {
        return Ok(());
    };
    let arguments: Vec<&str> = parts.collect();
    match (command, arguments.as_slice()) {
        ("word", [word]) => push_words(input, &[number(word)?]),
        ("repeat", [count, word]) => push_words(input, &vec![number(word)?; count_of(count)?]),
        ("days", [count, first]) => push_words(input, &days(count_of(count)?, number(first)?)?),
        ("bytes", bytes) => push_bytes(input, bytes)?,
        ("cut", [count]) => cut(input, count_of(count)?)?,
        _ => return Err(format!("not understood: {line}")),
    }
    Ok(())
}

fn number(text: &str) -> Result<u32, String> {
    text.parse().map_err(|_| format!("not a word: {text}"))
}

fn count_of(text: &str) -> Result<usize, String> {
    text.parse().map_err(|_| format!("not a count: {text}"))
}

fn push_words(input: &mut Vec<u8>, words: &[u32]) {
    input.extend(words.iter().flat_map(|word| word.to_le_bytes()));
}

fn push_bytes(input: &mut Vec<u8>, bytes: &[&str]) -> Result<(), String> {
    for text in bytes {
        let byte = u8::from_str_radix(text, 16).map_err(|_| format!("not a byte: {text}"))?;
        input.push(byte);
    }
    Ok(())
}

fn cut(input: &mut Vec<u8>, count: usize) -> Result<(), String> {
    let left = input
        .len()
        .checked_sub(count)
        .ok_or("there are not so many bytes to cut")?;
    input.truncate(left);
    Ok(())
}

/// Calendar days in a row.
fn days(count: usize, first: u32) -> Result<Vec<u32>, String> {
    let first = Date::from_word(first);
    let words: Vec<u32> = std::iter::successors(first, |day| day.next())
        .take(count)
        .map(Date::word)
        .collect();
    if words.len() < count {
        return Err("the calendar has not so many days".to_string());
    }
    Ok(words)
}

#[cfg(test)]
mod tests {
    use super::*;

    #[test]
    fn every_command() {
        let text = "# A comment.\nword 258 # two bytes\nrepeat 2 1\ncut 3\n\nbytes ff 0\n\
                    expect refused 6\n";
        let input = vec![2, 1, 0, 0, 1, 0, 0, 0, 1, 255, 0];
        assert_eq!(
            parse(text),
            Ok(Case {
                input,
                expected: "refused 6\n".to_string()
            })
        );
    }

    #[test]
    fn days_in_a_row() {
        assert_eq!(days(3, 20240228), Ok(vec![20240228, 20240229, 20240301]));
        assert!(days(2, 20981231).is_err());
        assert!(days(1, 20230229).is_err());
    }

    #[test]
    fn misshapen_cases() {
        let texts = [
            "word 1",
            "expect a\nexpect b",
            "word\nexpect a",
            "word 4294967296\nexpect a",
            "cut 1\nexpect a",
            "bytes 100\nexpect a",
            "wrod 1\nexpect a",
        ];
        for text in texts {
            assert!(parse(text).is_err(), "{text}");
        }
    }
}
