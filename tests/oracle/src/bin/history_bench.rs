//! Measures a replay program: `history_bench PROGRAM ORACLE FOLDER`, FOLDER for the histories.
//!
//! It fails where a call of a measured history is refused or not answered.

use std::fs::{self, File};
use std::io::{self, Read};
use std::path::{Path, PathBuf};
use std::process::{Command, ExitCode, Stdio};
use std::time::Instant;

use oracle::book::edition::EDITIONS;
use oracle::testing::history::days::{self, Life};

/// Of the books whose calls are measured one kind by one.
const LIFE: Life = Life::Under(2023);

const ROUNDS: usize = 5;
const CHECKS_A_DAY: usize = 10;
const SECTIONS: [usize; 3] = [1_000, 10_000, 36_000];
const FOUNDINGS: usize = 28;
const CHECKS: usize = 1_000_000;

/// A history in a file, and how many calls it has.
struct History {
    path: PathBuf,
    calls: usize,
}

fn write(folder: &Path, name: &str, parts: &[&[u8]]) -> io::Result<History> {
    let path = folder.join(name);
    let text = parts.concat();
    fs::write(&path, &text)?;
    let calls = text.iter().filter(|&&byte| byte == b'\n').count();
    Ok(History { path, calls })
}

/// Seconds of one run; an answer that is a refusal is an error.
fn seconds(program: &Path, history: &History) -> io::Result<f64> {
    let began = Instant::now();
    let mut child = Command::new(program)
        .stdin(File::open(&history.path)?)
        .stdout(Stdio::piped())
        .spawn()?;
    let mut output = Vec::new();
    if let Some(mut stdout) = child.stdout.take() {
        stdout.read_to_end(&mut output)?;
    }
    let status = child.wait()?;
    let taken = began.elapsed().as_secs_f64();
    let lines = output.iter().filter(|&&byte| byte == b'\n').count();
    let refused = output.windows(9).any(|part| part == b"\nrefused ");
    if !status.success() || lines != history.calls || refused {
        let path = history.path.display();
        return Err(io::Error::other(format!(
            "{path}: a call was refused or not answered"
        )));
    }
    Ok(taken)
}

fn median(mut times: Vec<f64>) -> f64 {
    times.sort_by(f64::total_cmp);
    times[times.len() / 2]
}

/// The medians of both programs on a history, run in turn.
fn in_turn(program: &Path, oracle: &Path, history: &History) -> io::Result<(f64, f64)> {
    let mut ours = Vec::new();
    let mut theirs = Vec::new();
    for _ in 0..ROUNDS {
        ours.push(seconds(program, history)?);
        theirs.push(seconds(oracle, history)?);
    }
    Ok((median(ours), median(theirs)))
}

fn compare(program: &Path, oracle: &Path, folder: &Path, life: Life) -> io::Result<()> {
    let days = days::all_days(life, CHECKS_A_DAY).text;
    let history = write(folder, "days.history", &[&days])?;
    let (ours, theirs) = in_turn(program, oracle, &history)?;
    let speed = |time: f64| history.calls as f64 / time;
    println!(
        "{} calls of 36,160 days {life} with ten checks a day, \
         median of {ROUNDS} runs in turn",
        history.calls
    );
    println!("replay                {:>9.0} calls a second", speed(ours));
    println!(
        "second implementation {:>9.0} calls a second, ratio {:.2}",
        speed(theirs),
        speed(ours) / speed(theirs)
    );
    Ok(())
}

/// Nanoseconds a call between the ends of two prefixes of one book's life.
fn sections(program: &Path, folder: &Path) -> io::Result<()> {
    let mut before = (0.0, 0);
    for count in SECTIONS {
        let history = write(folder, "first.history", &[&days::days(LIFE, 0, count).text])?;
        let times: io::Result<Vec<f64>> = (0..ROUNDS).map(|_| seconds(program, &history)).collect();
        let time = median(times?);
        let calls = history.calls - before.1;
        println!(
            "to day {count:>6}: {:.0} ns a call since the last",
            (time - before.0) * 1e9 / calls as f64
        );
        before = (time, history.calls);
    }
    Ok(())
}

/// One founding after another, each through all its days.
fn foundings(program: &Path, folder: &Path) -> io::Result<()> {
    let life = days::all_days(LIFE, 0).text;
    let one = write(folder, "life.history", &[&life])?;
    let all = write(folder, "lives.history", &vec![life.as_slice(); FOUNDINGS])?;
    let first = seconds(program, &one)? / one.calls as f64;
    let mean = seconds(program, &all)? / all.calls as f64;
    println!(
        "{} days in {FOUNDINGS} foundings: {:.0} ns a call, {:.2} of one founding's",
        36_160 * FOUNDINGS,
        mean * 1e9,
        mean / first
    );
    fs::remove_file(&all.path)
}

/// One check again and again, on a book with full windows.
fn one_check(program: &Path, folder: &Path) -> io::Result<()> {
    let life = days::days(LIFE, CHECKS_A_DAY, 100).text;
    let text = String::from_utf8_lossy(&life);
    let last_end = text.rfind("end\n").unwrap_or(0);
    let check = text
        .lines()
        .rfind(|line| line.starts_with("check"))
        .unwrap_or("");
    let checks = format!("{check}\n").repeat(CHECKS);
    let base = write(folder, "base.history", &[&life[..last_end]])?;
    let history = write(
        folder,
        "checks.history",
        &[&life[..last_end], checks.as_bytes()],
    )?;
    let time = median(
        (0..ROUNDS)
            .map(|_| seconds(program, &history))
            .collect::<io::Result<_>>()?,
    );
    let rest = seconds(program, &base)?;
    println!(
        "one check: {:.0} ns, reading and writing its line included",
        (time - rest) * 1e9 / CHECKS as f64
    );
    Ok(())
}

fn main() -> ExitCode {
    let paths: Vec<PathBuf> = std::env::args_os().skip(1).map(PathBuf::from).collect();
    let [program, oracle, folder] = paths.as_slice() else {
        eprintln!("usage: history_bench PROGRAM ORACLE FOLDER");
        return ExitCode::FAILURE;
    };
    let mut compared = EDITIONS
        .into_iter()
        .map(|edition| compare(program, oracle, folder, Life::Under(edition)));
    let done = compared
        .try_for_each(|one| one)
        .and_then(|()| sections(program, folder))
        .and_then(|()| foundings(program, folder))
        .and_then(|()| one_check(program, folder));
    match done {
        Ok(()) => ExitCode::SUCCESS,
        Err(error) => {
            eprintln!("{error}");
            ExitCode::FAILURE
        }
    }
}
