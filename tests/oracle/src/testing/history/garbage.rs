//! Garbage and mutated histories, each small.

use super::scenario;
use crate::book::edition::EDITIONS;
use crate::testing::random::Random;

const WORDS: [&str; 29] = [
    "found",
    "open",
    "sheet",
    "end",
    "convert",
    "check",
    "bare",
    "book",
    "months",
    "settlements",
    "0",
    "1",
    "2",
    "7",
    "8",
    "6000",
    "200",
    "24294",
    "2014",
    "2023",
    "2024",
    "6",
    "27",
    "4294967295",
    "4294967296",
    "#",
    "",
    "-1",
    "00",
];

const BETWEEN: [&str; 12] = [
    " ", " ", " ", " ", " ", " ", "  ", "\n", "\n", "\r\n", "\t", "\0",
];

/// A piece from a seed.
pub fn piece(seed: u64) -> Vec<u8> {
    let mut random = Random::new(seed ^ 0x006A_12BA_6E00);
    match random.below(10) {
        0 => noise(&mut random),
        1 => words(&mut random),
        _ => mutated(&mut random),
    }
}

fn noise(random: &mut Random) -> Vec<u8> {
    let length = random.below(600);
    (0..length).map(|_| random.bits() as u8).collect()
}

/// Words of the format in no order, after a founding or none.
fn words(random: &mut Random) -> Vec<u8> {
    let mut text = String::new();
    if random.one_in(2) {
        let edition = random.pick(&EDITIONS);
        let limits = "200 400 200 200 240 240 160 100";
        text.push_str(&format!("found {edition} {limits}\nopen 2024 6 27 1\n"));
    }
    for _ in 0..random.below(150) {
        text.push_str(random.pick(&WORDS));
        text.push_str(random.pick(&BETWEEN));
    }
    text.into_bytes()
}

/// A short history with some things changed.
fn mutated(random: &mut Random) -> Vec<u8> {
    let lines = random.pick(&[4, 12, 25, 40]);
    let mut text = scenario::history_of(random.bits() >> 16, lines).text;
    for _ in 0..random.between(1, 6) {
        mutate(random, &mut text);
    }
    text
}

fn mutate(random: &mut Random, text: &mut Vec<u8>) {
    if text.is_empty() {
        return;
    }
    let place = random.below(text.len());
    match random.below(12) {
        0 => text[place] ^= 1 << random.below(8),
        1 => text[place] = random.bits() as u8,
        2 => drop(text.remove(place)),
        3 => text.insert(place, random.pick(b" \n\r\t0#9\0")),
        4 => text.truncate(place),
        5 => with_line(random, text, |_, line| line.truncate(line.len() / 2)),
        6 => with_line(random, text, double_line),
        7 => with_line(random, text, |_, line| line.clear()),
        8 => join_lines(text, place),
        9 => with_line(random, text, double_space),
        10 => with_line(random, text, add_digits),
        _ => with_line(random, text, |random, line| {
            line.extend(random.pick(&["\r", " ", "\t", " 0"]).bytes())
        }),
    }
}

/// Changes one line, without its newline.
fn with_line(random: &mut Random, text: &mut Vec<u8>, change: fn(&mut Random, &mut Vec<u8>)) {
    let mut lines: Vec<Vec<u8>> = text
        .split(|&byte| byte == b'\n')
        .map(<[u8]>::to_vec)
        .collect();
    let drawn = random.below(lines.len());
    change(random, &mut lines[drawn]);
    *text = lines.join(&b'\n');
}

fn double_line(_: &mut Random, line: &mut Vec<u8>) {
    let copy = line.clone();
    line.push(b'\n');
    line.extend(copy);
}

fn join_lines(text: &mut Vec<u8>, from: usize) {
    let newline = text[from..].iter().position(|&byte| byte == b'\n');
    if let Some(after) = newline {
        text.remove(from + after);
    }
}

fn double_space(random: &mut Random, line: &mut Vec<u8>) {
    let spaces: Vec<usize> = (0..line.len())
        .filter(|&place| line[place] == b' ')
        .collect();
    if !spaces.is_empty() {
        line.insert(random.pick(&spaces), b' ');
    }
}

fn add_digits(random: &mut Random, line: &mut Vec<u8>) {
    let digits: Vec<usize> = (0..line.len())
        .filter(|&place| line[place].is_ascii_digit())
        .collect();
    if digits.is_empty() {
        return;
    }
    let place = random.pick(&digits);
    for _ in 0..random.pick(&[1, 1, 3, 8]) {
        line.insert(place, random.pick(b"0123456789"));
    }
}

#[cfg(test)]
mod tests {
    use super::*;
    use crate::history::replay::answers;
    use crate::testing::history::compare::{answered_lines, lines};

    #[test]
    fn every_line_that_counts_is_answered_once() {
        for seed in 0..300 {
            let piece = piece(seed);
            let answers = answers(&piece);
            assert_eq!(
                lines(&answers).len(),
                answered_lines(&piece).len(),
                "seed {seed}"
            );
        }
    }
}
