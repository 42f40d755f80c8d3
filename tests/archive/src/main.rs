//! Compares the book's calls of the archive with the second implementation: `archive_compare EXAMPLES_DIR`.

mod archive;
mod arrays;
mod bases;
mod compare;
mod conversions;
mod draw;
mod editions;
mod fields;
mod histories;
mod images;
mod lefts;
mod memory;
mod noise;
mod odd;
mod old_format;
mod reached;
mod tallies;
mod through;
mod values;

use std::env;
use std::path::Path;
use std::process::ExitCode;

use oracle::testing::score::Score;

fn main() -> ExitCode {
    let Some(examples) = env::args_os().nth(1) else {
        eprintln!("usage: archive_compare EXAMPLES_DIR");
        return ExitCode::FAILURE;
    };
    let mut score = Score::default();
    let mut comparer = compare::Comparer::new();
    let bases = bases::bases();
    images::compare(&mut comparer, &bases, &mut score);
    editions::compare(&mut comparer, &bases, &mut score);
    conversions::compare(&mut comparer, &bases, &mut score);
    old_format::compare(&mut comparer, &bases, &mut score);
    lefts::compare(&mut comparer, &bases, &mut score);
    arrays::compare(&mut comparer, &bases, &mut score);
    tallies::compare(&mut comparer, &bases, &mut score);
    histories::compare(Path::new(&examples), &mut score);
    score.finish()
}
