//! Conversions in the course of a history, and beside it.

use super::Scenario;
use crate::history::answer::CONVERTED;
use crate::history::call::Call;
use crate::testing::history::false_openings;
use crate::testing::history::pace::Phase;

impl Scenario {
    /// A conversion before this next day, if one is due; at times one that changes nothing, before another season.
    pub fn convert_between_days(&mut self, next: [u32; 4]) {
        if self.temper.converts_after == Some(self.ended) {
            return self.carry(next);
        }
        let is_last = self.temper.pace.phase(self.ended) == Phase::Last;
        if is_last && self.random.one_in(3) {
            self.convert_in_vain();
        }
    }

    /// Carries the book to the edition of 2023.
    fn carry(&mut self, next: [u32; 4]) {
        let answer = self.convert();
        assert_eq!(answer, CONVERTED, "no group is expanded");
        if self.random.one_in(3) {
            self.convert();
        }
        // By itself, or by the last day before the conversion.
        let book = self.writer.book();
        let call = false_openings::draw(&mut self.random, book, next);
        self.call(call);
    }

    /// A conversion that changes nothing: on an open day, of an expanded group, or under 2023 already.
    pub fn convert_in_vain(&mut self) {
        let book = self.writer.book();
        if book.is_open || book.edition == 2023 || book.has_expanded_group() {
            self.convert();
        }
    }

    /// Gives the answer, too.
    fn convert(&mut self) -> String {
        let answer = self.call(Call::Convert);
        if self.random.one_in(3) {
            self.call(Call::Book);
        }
        answer
    }
}
