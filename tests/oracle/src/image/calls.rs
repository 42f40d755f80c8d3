//! The calls on an image: the number that each returns, and the image after it.

use super::Image;
use crate::book::{Book, PRODUCT_COUNT};
use crate::refusal::Refusal;
use crate::tally::Tally;
use crate::verdict::SpanWords;

/// What every call but a check returns where it is accepted.
pub const ACCEPTED: u32 = 0;

impl Image {
    /// Looks at nothing that the image held before.
    pub fn found(&mut self, edition: u32, limits: [u32; PRODUCT_COUNT]) -> u32 {
        number(Book::found(edition, limits).map(|book| *self = Image::of(&book)))
    }

    pub fn open(&mut self, [year, month, day, left]: [u32; 4]) -> u32 {
        number(self.change(|book| book.open(year, month, day, left), Image::put_renewed))
    }

    pub fn sheet(&mut self, product: u32, months: &[u32], settlements: &[u32]) -> u32 {
        let file = |book: &mut Book| book.file(product, months, settlements);
        number(self.change(file, |_, ()| ()))
    }

    pub fn end(&mut self) -> u32 {
        number(self.change(Book::end, Image::put_events))
    }

    /// Writes the edition alone: no other word changes, not even one that means nothing.
    pub fn convert(&mut self) -> u32 {
        let converted = self.after(Book::convert);
        number(converted.map(|(book, ())| self.edition = book.edition))
    }

    pub fn check(&self, order: [u32; 4]) -> u32 {
        self.check_span(order).answer
    }

    /// A check with the ends of its span.
    pub fn check_span(&self, [product, size, month, price]: [u32; 4]) -> SpanWords {
        let book = self.book().ok_or(Refusal::Unsound);
        SpanWords::from(book.and_then(|book| book.check(product, size, month, price)))
    }

    /// A check counted in a tally; a refusal of the tally's own comes first and counts nothing.
    pub fn tallied_check(&self, tally: &mut Tally, order: [u32; 4]) -> u32 {
        tally.through(|| self.check(order))
    }

    /// Makes a call on the book in the image and puts in what it changed and answered.
    fn change<Answer>(
        &mut self,
        call: impl FnOnce(&mut Book) -> Result<Answer, Refusal>,
        put: impl FnOnce(&mut Image, Answer),
    ) -> Result<(), Refusal> {
        let (book, answer) = self.after(call)?;
        self.put_book(&book);
        put(self, answer);
        Ok(())
    }

    /// The book in the image after a call, and what the call answered.
    fn after<Answer>(
        &self,
        call: impl FnOnce(&mut Book) -> Result<Answer, Refusal>,
    ) -> Result<(Book, Answer), Refusal> {
        let mut book = self.book().ok_or(Refusal::Unsound)?;
        let answer = call(&mut book)?;
        Ok((book, answer))
    }
}

fn number(outcome: Result<(), Refusal>) -> u32 {
    match outcome {
        Ok(()) => ACCEPTED,
        Err(refusal) => refusal.number(),
    }
}
