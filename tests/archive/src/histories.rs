//! Every history that `replay` is compared on, through the archive.

use std::path::Path;

use oracle::testing::files;
use oracle::testing::history::jobs::{self, Job};
use oracle::testing::score::Score;
use oracle::testing::workers::share_out;

use crate::archive::Archive;
use crate::through::{self, Outcome};

const WORKERS: usize = 2;

/// A job, and what came of each of its histories.
type Done<'a> = (&'a Job, Vec<Outcome>);

pub fn compare(examples: &Path, score: &mut Score) {
    let files = files::with_extension(examples, "history").unwrap_or_else(|error| {
        score.fail(&format!("{}: {error}", examples.display()));
        Vec::new()
    });
    let jobs = jobs::all(files);
    let outcomes = share_out(WORKERS, &jobs, Archive::new, run);
    let done: Vec<Done> = jobs.iter().zip(outcomes).collect();
    for part in jobs::SINGLE {
        for one in of(part, &done) {
            one_test(&one.0.name(), [one], score);
        }
    }
    for part in jobs::DRAWN {
        one_test(part, of(part, &done), score);
    }
}

/// The histories of a job through the archive.
fn run(archive: &mut Archive, job: &Job) -> Vec<Outcome> {
    match job.histories() {
        Ok(histories) => histories
            .iter()
            .map(|history| through::compare(archive, history))
            .collect(),
        Err(error) => vec![Outcome {
            calls: 0,
            failure: Some(error.to_string()),
        }],
    }
}

fn of<'a>(part: &'a str, done: &'a [Done]) -> impl Iterator<Item = &'a Done<'a>> {
    done.iter().filter(move |(job, _)| job.part() == part)
}

/// One test over all histories of some jobs; the first that fails is told.
fn one_test<'a>(what: &str, done: impl IntoIterator<Item = &'a Done<'a>>, score: &mut Score) {
    let (mut histories, mut calls, mut failure) = (0, 0, None);
    for (job, outcomes) in done {
        for outcome in outcomes {
            histories += 1;
            calls += outcome.calls;
            let named = |why: &String| format!("{}: {why}", job.name());
            failure = failure.or(outcome.failure.as_ref().map(named));
        }
    }
    let nothing = (histories == 0).then(|| "no history".to_string());
    score.one(
        &format!("{what} through the archive, histories: {histories}, calls: {calls}"),
        failure.or(nothing),
    );
}
