//! Runs the program under test on every stored case: `season_cases PROGRAM FOLDER`.

use std::path::{Path, PathBuf};
use std::process::ExitCode;
use std::{env, fs};

use oracle::testing::case::{self, Case};
use oracle::testing::files;
use oracle::testing::program::{Delivery, Program};
use oracle::testing::score::{difference, Score};

fn main() -> ExitCode {
    let arguments: Vec<PathBuf> = env::args_os().skip(1).map(PathBuf::from).collect();
    let [program, folder] = arguments.as_slice() else {
        eprintln!("usage: season_cases PROGRAM FOLDER");
        return ExitCode::FAILURE;
    };
    let mut program = Program::new(program);
    let mut score = Score::default();
    match files::with_extension(folder, "txt") {
        Ok(files) => files
            .iter()
            .for_each(|file| run(&mut program, file, &mut score)),
        Err(error) => score.fail(&format!("{}: {error}", folder.display())),
    }
    score.finish()
}

fn run(program: &mut Program, file: &Path, score: &mut Score) {
    let name = file.file_stem().unwrap_or_default().to_string_lossy();
    let failure = match load(file) {
        Ok(case) => difference(
            &case.expected,
            program.output_of(&case.input, Delivery::Whole),
        ),
        Err(error) => Some(error),
    };
    score.one(&name, failure);
}

fn load(file: &Path) -> Result<Case, String> {
    let text = fs::read_to_string(file).map_err(|error| error.to_string())?;
    case::parse(&text)
}
