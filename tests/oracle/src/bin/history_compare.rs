//! Compares a replay program with this implementation: `history_compare PROGRAM [EXAMPLES_DIR]`.

use std::env;
use std::path::PathBuf;
use std::process::ExitCode;

use oracle::testing::files;
use oracle::testing::history::coverage::{self, Coverage};
use oracle::testing::history::jobs::{self, Outcome, Trial};
use oracle::testing::program::{Program, OF_HISTORIES};
use oracle::testing::score::Score;
use oracle::testing::workers::share_out;

const WORKERS: usize = 2;

fn main() -> ExitCode {
    let arguments: Vec<PathBuf> = env::args_os().skip(1).map(PathBuf::from).collect();
    let (program, examples) = match arguments.as_slice() {
        [program] => (program, None),
        [program, examples] => (program, Some(examples)),
        _ => {
            eprintln!("usage: history_compare PROGRAM [EXAMPLES_DIR]");
            return ExitCode::FAILURE;
        }
    };
    let mut score = Score::default();
    let mut files = Vec::new();
    if let Some(folder) = examples {
        match files::with_extension(folder, "history") {
            Ok(found) => files = found,
            Err(error) => score.fail(&format!("{}: {error}", folder.display())),
        }
    }
    let jobs = jobs::all(files);
    let tool = || Program::within(program, OF_HISTORIES);
    let outcomes = share_out(WORKERS, &jobs, tool, jobs::run);
    report(&outcomes, &mut score);
    score.finish()
}

/// Scores each part, then what the generated histories reached.
fn report(outcomes: &[Outcome], score: &mut Score) {
    for trial in jobs::SINGLE.iter().flat_map(|part| of(part, outcomes)) {
        score.one(&trial.name, trial.failure.clone());
    }
    for part in jobs::DRAWN {
        let failures: Vec<Option<String>> = of(part, outcomes).map(failure).collect();
        score.all(part, &failures);
    }
    let mut reached = Coverage::default();
    for outcome in outcomes {
        reached.add(&outcome.coverage);
    }
    report_reached(&reached, score);
}

fn of<'a>(part: &'a str, outcomes: &'a [Outcome]) -> impl Iterator<Item = &'a Trial> {
    let trials = outcomes.iter().flat_map(|outcome| &outcome.trials);
    trials.filter(move |trial| trial.part == part)
}

fn failure(trial: &Trial) -> Option<String> {
    let failure = trial.failure.as_ref()?;
    Some(format!("{}: {failure}", trial.name))
}

/// One test: whatever was not reached fails it.
fn report_reached(reached: &Coverage, score: &mut Score) {
    let wanted = coverage::wanted();
    for what in &wanted {
        println!("{:9} {what}", reached.times(what));
    }
    let missed: Vec<&str> = wanted
        .iter()
        .filter(|what| reached.times(what) == 0)
        .map(String::as_str)
        .collect();
    let failure = (!missed.is_empty()).then(|| format!("not {}", missed.join("; ")));
    score.one(
        &format!("all {} things that histories reach", wanted.len()),
        failure,
    );
}
