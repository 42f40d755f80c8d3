//! Conversion: a book is carried from the edition of 2014 to that of 2023.

use super::edition::Edition;
use super::{Book, Level};
use crate::refusal::Refusal;

impl Book {
    /// Carries the book to the edition of 2023, or gives the first refusal in the order 1, 2, 18. A book that is there
    /// already stays as it is.
    pub fn convert(&mut self) -> Result<(), Refusal> {
        if !self.is_sound() {
            return Err(Refusal::Unsound);
        }
        if self.is_open {
            return Err(Refusal::Day);
        }
        if self.edition == Edition::Of2014.year() && self.has_expanded_group() {
            return Err(Refusal::Expanded);
        }
        self.edition = Edition::Of2023.year();
        Ok(())
    }

    pub fn has_expanded_group(&self) -> bool {
        let mut standings = self.standings.iter();
        standings.any(|standing| standing.level == Level::Expanded)
    }
}
