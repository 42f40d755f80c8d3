//! A second implementation of docs/RULES.md, written from the rule alone.
//!
//! It shares no text with the proved code, so that the two can be compared.

pub mod amounts;
pub mod bare;
pub mod book;
pub mod dates;
pub mod history;
pub mod image;
pub mod prices;
pub mod products;
pub mod refusal;
pub mod season;
pub mod tally;
pub mod testing;
pub mod verdict;
