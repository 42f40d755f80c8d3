//! A history being written, with the book that it has made so far.

use super::coverage::Coverage;
use super::text;
use crate::book::Book;
use crate::history::answer;
use crate::history::call::{self, Call};
use crate::testing::random::Random;

pub struct Writer {
    pub text: Vec<u8>,
    pub lines: usize,
    /// What this implementation made of the lines so far.
    pub model: Option<Book>,
    pub coverage: Coverage,
    /// Draws how numbers are written.
    hand: Random,
}

impl Writer {
    pub fn new(seed: u64) -> Writer {
        Writer {
            text: Vec::new(),
            lines: 0,
            model: None,
            coverage: Coverage::default(),
            hand: Random::new(seed ^ 0xD1617),
        }
    }

    /// The model, once a book was founded.
    pub fn book(&self) -> &Book {
        self.model.as_ref().expect("a book was founded")
    }

    /// Writes a call, at times with leading zeros, and gives the model's answer.
    pub fn call(&mut self, call: &Call) -> String {
        if !self.hand.one_in(60) {
            self.push(text::line(call).as_bytes());
            return self.answer(call);
        }
        self.coverage.count("format: leading zeros");
        let zeros = self.hand.pick(&[1, 3, 12, 500]);
        let number = |number| format!("{}{number}", "0".repeat(zeros));
        let line = text::line_with(call, number);
        self.push(line.as_bytes());
        self.answer(call)
    }

    /// Writes any line, without its newline.
    pub fn line(&mut self, line: &[u8]) {
        self.push(line);
        match call::parse(line) {
            _ if line.is_empty() => self.coverage.count("format: blank line"),
            _ if line[0] == b'#' => self.coverage.count("format: comment"),
            None => self.coverage.count("format: not a call"),
            Some(call) => {
                self.answer(&call);
            }
        }
    }

    /// Ends the history without a newline.
    pub fn drop_last_newline(&mut self) {
        self.text.pop();
        self.coverage.count("format: last line without a newline");
    }

    fn push(&mut self, line: &[u8]) {
        self.text.extend_from_slice(line);
        self.text.push(b'\n');
        self.lines += 1;
    }

    fn answer(&mut self, call: &Call) -> String {
        let before = self.model.clone();
        let answer = answer::answer(&mut self.model, call);
        self.coverage
            .observe(before.as_ref(), call, &answer, self.model.as_ref());
        answer
    }
}
