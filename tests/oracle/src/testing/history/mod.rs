//! Histories: most are drawn from a seed and steered by this implementation's own book.

pub mod calendar;
pub mod compare;
pub mod coverage;
pub mod days;
pub mod every_date;
pub mod false_openings;
pub mod faults;
pub mod garbage;
pub mod jobs;
pub mod listing;
pub mod market;
pub mod moods;
pub mod pace;
pub mod plots;
pub mod scenario;
pub mod sent_again;
pub mod side_by_side;
pub mod stray;
pub mod temper;
pub mod text;
pub mod view;
pub mod writer;

#[cfg(test)]
mod calmed_tests;
