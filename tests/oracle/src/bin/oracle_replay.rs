//! A history on standard input, its answers on standard output.

use std::io;
use std::process::ExitCode;

use oracle::history::replay::replay;

fn main() -> ExitCode {
    match replay(io::stdin().lock(), io::stdout().lock()) {
        Ok(()) => ExitCode::SUCCESS,
        Err(error) => {
            eprintln!("{error}");
            ExitCode::FAILURE
        }
    }
}
