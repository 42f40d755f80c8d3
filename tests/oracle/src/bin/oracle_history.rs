//! Prints a history: `oracle_history days LIFE` or `oracle_history seed N`.

use std::io::{self, Write};
use std::process::ExitCode;

use oracle::book::edition::EDITIONS;
use oracle::testing::history::days::{self, Life};
use oracle::testing::history::scenario;

const USAGE: &str = "usage: oracle_history days LIFE | oracle_history seed N
days LIFE  every day from 2000 to 2098 with ten checks, no call refused; LIFE is 2014, 2023 or carried
seed N     about 2,000 calls drawn from N";

const CHECKS_A_DAY: usize = 10;

/// The word `carried`, or a year that is an edition's.
fn life(word: &str) -> Option<Life> {
    if word == "carried" {
        return Some(Life::Carried);
    }
    let year = word.parse().ok()?;
    EDITIONS.contains(&year).then_some(Life::Under(year))
}

fn main() -> ExitCode {
    let arguments: Vec<String> = std::env::args().skip(1).collect();
    let words: Vec<&str> = arguments.iter().map(String::as_str).collect();
    let text = match words.as_slice() {
        ["days", word] => life(word).map(|life| days::all_days(life, CHECKS_A_DAY).text),
        ["seed", seed] => seed.parse().ok().map(|seed| scenario::history(seed).text),
        _ => None,
    };
    let Some(text) = text else {
        eprintln!("{USAGE}");
        return ExitCode::FAILURE;
    };
    match io::stdout().write_all(&text) {
        Ok(()) => ExitCode::SUCCESS,
        Err(error) => {
            eprintln!("{error}");
            ExitCode::FAILURE
        }
    }
}
