//! The tests of a replay program, in jobs that threads share.

use std::path::{Path, PathBuf};
use std::{fs, io};

use super::compare::{answered_lines, difference, lines};
use super::coverage::Coverage;
use super::days::{Life, LIVES};
use super::sent_again::SentAgain;
use super::side_by_side::PAIRS_A_GROUP;
use super::{days, every_date, garbage, scenario, sent_again, side_by_side};
use crate::book::edition::EDITIONS;
use crate::book::GROUP_COUNT;
use crate::history::replay::answers;
use crate::testing::program::{Delivery, Program};

#[derive(Clone, Debug)]
pub enum Job {
    /// Every day from 2000 to 2098, of a life.
    AllDays(Life),
    /// Every year, month and day from 1999 to 2099, true or false, under an edition.
    EveryDate(u32),
    /// A generated history, by its seed.
    Generated(u64),
    /// A generated history with orders sent again at the ends of each span.
    SentAgain(u64),
    Example(PathBuf),
    /// So many pieces of garbage from a seed on.
    Garbage {
        first: u64,
        count: u64,
    },
    /// Two histories that agree on a group.
    SideBySide {
        group: usize,
        seed: u64,
    },
}

/// A history that was tried, and why it failed if it did.
pub struct Trial {
    /// The kind of job that made it.
    pub part: &'static str,
    pub name: String,
    pub failure: Option<String>,
}

#[derive(Default)]
pub struct Outcome {
    pub trials: Vec<Trial>,
    pub coverage: Coverage,
}

const HISTORIES: u64 = 350;
const HISTORIES_SENT_AGAIN: u64 = 70;
const PIECES: u64 = 10_000;
const PIECES_A_JOB: u64 = 50;
const CHECKS_A_DAY: usize = 2;

const ALL_DAYS: &str = "all days";
const EVERY_DATE: &str = "every date from 1999 to 2099";
const EXAMPLE: &str = "example";
const GENERATED: &str = "generated histories";
const SENT_AGAIN: &str = "histories with orders sent again at the ends of their spans";
const SIDE_BY_SIDE: &str = "pairs of histories side by side";
const GARBAGE: &str = "pieces of garbage";

/// The parts in which each history is a test of its own.
pub const SINGLE: [&str; 3] = [ALL_DAYS, EVERY_DATE, EXAMPLE];

/// The parts that are one test over many histories.
pub const DRAWN: [&str; 4] = [GENERATED, SENT_AGAIN, SIDE_BY_SIDE, GARBAGE];

/// All days, every date, the examples, and all that is drawn.
pub fn all(examples: Vec<PathBuf>) -> Vec<Job> {
    let examples = examples.into_iter().map(Job::Example);
    let generated = (0..HISTORIES).map(Job::Generated);
    let sent_again = (0..HISTORIES_SENT_AGAIN).map(Job::SentAgain);
    let garbage = (0..PIECES / PIECES_A_JOB).map(|job| Job::Garbage {
        first: job * PIECES_A_JOB,
        count: PIECES_A_JOB,
    });
    let pairs = (0..GROUP_COUNT)
        .flat_map(|group| (0..PAIRS_A_GROUP).map(move |seed| Job::SideBySide { group, seed }));
    let drawn = generated.chain(sent_again).chain(pairs).chain(garbage);
    let lives = LIVES.into_iter().map(Job::AllDays);
    let dates = EDITIONS.into_iter().map(Job::EveryDate);
    lives.chain(dates).chain(examples).chain(drawn).collect()
}

impl Job {
    /// The kind of job.
    pub fn part(&self) -> &'static str {
        match self {
            Job::AllDays(_) => ALL_DAYS,
            Job::EveryDate(_) => EVERY_DATE,
            Job::Generated(_) => GENERATED,
            Job::SentAgain(_) => SENT_AGAIN,
            Job::Example(_) => EXAMPLE,
            Job::Garbage { .. } => GARBAGE,
            Job::SideBySide { .. } => SIDE_BY_SIDE,
        }
    }

    pub fn name(&self) -> String {
        match self {
            Job::AllDays(life) => format!("{ALL_DAYS} {life}"),
            Job::EveryDate(edition) => format!("{EVERY_DATE} under the edition of {edition}"),
            Job::Generated(seed) | Job::SentAgain(seed) => format!("seed {seed}"),
            Job::Example(path) => format!("{EXAMPLE} {}", path.display()),
            Job::Garbage { first, count } => format!("{count} seeds from {first} on"),
            Job::SideBySide { group, seed } => format!("group {group}, seed {seed}"),
        }
    }

    /// The histories that the job is about.
    pub fn histories(&self) -> io::Result<Vec<Vec<u8>>> {
        Ok(match self {
            Job::AllDays(life) => vec![days::all_days(*life, CHECKS_A_DAY).text],
            Job::EveryDate(edition) => vec![every_date::history(*edition)],
            Job::Generated(seed) => vec![scenario::history(*seed).text],
            Job::SentAgain(seed) => {
                let history = scenario::history(*seed).text;
                vec![sent_again::sent_again(&history, &answers(&history)).text]
            }
            Job::Example(path) => vec![fs::read(path)?],
            Job::Garbage { first, count } => (*first..first + count).map(garbage::piece).collect(),
            Job::SideBySide { group, seed } => {
                let sides = side_by_side::pair(*group, *seed).sides;
                sides.map(|side| side.text).into()
            }
        })
    }
}

/// Runs a job with a program under test.
pub fn run(program: &mut Program, job: &Job) -> Outcome {
    match job {
        Job::AllDays(life) => one(job, all_days(program, *life)),
        Job::EveryDate(edition) => one(job, every_date(program, *edition)),
        Job::Generated(seed) => generated(program, job, *seed),
        Job::SentAgain(seed) => one(job, sent_again(program, *seed)),
        Job::Example(path) => one(job, example(program, path)),
        Job::Garbage { first, count } => garbage_from(program, *first, *count),
        Job::SideBySide { group, seed } => one(job, side_by_side(program, *group, *seed)),
    }
}

/// The outcome of a job that is one trial.
fn one(job: &Job, failure: Option<String>) -> Outcome {
    Outcome {
        trials: vec![Trial {
            part: job.part(),
            name: job.name(),
            failure,
        }],
        coverage: Coverage::default(),
    }
}

/// Compares the program's answers with this implementation's.
fn compare(program: &mut Program, history: &[u8], expected: &[u8]) -> Option<String> {
    match program.output_of(history, Delivery::Whole) {
        Ok(output) => difference(history, expected, &output),
        Err(error) => Some(error),
    }
}

fn generated(program: &mut Program, job: &Job, seed: u64) -> Outcome {
    let history = scenario::history(seed);
    let failure = compare(program, &history.text, &answers(&history.text));
    Outcome {
        coverage: history.coverage,
        ..one(job, failure)
    }
}

/// The spans are the program's own, so that it is held to what it said.
fn sent_again(program: &mut Program, seed: u64) -> Option<String> {
    let history = scenario::history(seed).text;
    let answers = match program.output_of(&history, Delivery::Whole) {
        Ok(answers) => answers,
        Err(error) => return Some(error),
    };
    match sent_again::sent_again(&history, &answers) {
        SentAgain { orders: 0, .. } => Some("no check gave a span".to_string()),
        again => compare(program, &again.text, &again.expected),
    }
}

fn example(program: &mut Program, path: &Path) -> Option<String> {
    match fs::read(path) {
        Ok(history) => compare(program, &history, &answers(&history)),
        Err(error) => Some(error.to_string()),
    }
}

/// No call of all days is refused, by this implementation or by the program.
fn all_days(program: &mut Program, life: Life) -> Option<String> {
    let days = days::all_days(life, CHECKS_A_DAY);
    compare(program, &days.text, &days.answers)
}

/// The expected answers are first held to the calendar, then the program to them.
fn every_date(program: &mut Program, edition: u32) -> Option<String> {
    let history = every_date::history(edition);
    let expected = answers(&history);
    every_date::miscount(&expected).or_else(|| compare(program, &history, &expected))
}

fn garbage_from(program: &mut Program, first: u64, count: u64) -> Outcome {
    let trials = (first..first + count).map(|seed| {
        let piece = garbage::piece(seed);
        Trial {
            part: GARBAGE,
            name: format!("seed {seed}"),
            failure: survive(program, &piece),
        }
    });
    Outcome {
        trials: trials.collect(),
        coverage: Coverage::default(),
    }
}

/// One answer for each line that is neither blank nor a comment, and the right one.
fn survive(program: &mut Program, piece: &[u8]) -> Option<String> {
    let output = match program.output_of(piece, Delivery::Whole) {
        Ok(output) => output,
        Err(error) => return Some(error),
    };
    let (due, written) = (answered_lines(piece).len(), lines(&output).len());
    let miscounted = (due != written).then(|| format!("{due} lines are due, not {written}"));
    difference(piece, &answers(piece), &output).or(miscounted)
}

fn side_by_side(program: &mut Program, group: usize, seed: u64) -> Option<String> {
    let pair = side_by_side::pair(group, seed);
    let outputs = pair
        .sides
        .each_ref()
        .map(|side| program.output_of(&side.text, Delivery::Whole));
    match outputs {
        [Ok(first), Ok(second)] => pair.difference([&first, &second]),
        [Err(error), _] | [_, Err(error)] => Some(error),
    }
}
