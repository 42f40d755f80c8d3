//! The second implementation on the command line: `oracle season`, `bare` and `replay`.

use std::io::{self, BufRead, Read, Write};
use std::process::ExitCode;

use oracle::bare::{self, Order};
use oracle::history::replay::replay;
use oracle::season;

const USAGE: &str = "usage: oracle season < FILE | oracle bare < LINES | oracle replay < HISTORY
season  a season file on standard input; writes its line
bare    lines PRODUCT SIZE SETTLEMENT AMOUNT SPOT PRICE; writes for each its number, lowest and highest
replay  a history of calls; writes a line for each";

fn main() -> ExitCode {
    let command = std::env::args().nth(1).unwrap_or_default();
    let outcome = match command.as_str() {
        "season" => answer_season(),
        "bare" => answer_bare(),
        "replay" => replay(io::stdin().lock(), io::stdout().lock()),
        _ => Err(io::Error::other(USAGE)),
    };
    match outcome {
        Ok(()) => ExitCode::SUCCESS,
        Err(error) => {
            eprintln!("{error}");
            ExitCode::FAILURE
        }
    }
}

fn answer_season() -> io::Result<()> {
    let mut file = Vec::new();
    io::stdin().read_to_end(&mut file)?;
    io::stdout().write_all(season::answer(&file).as_bytes())
}

fn answer_bare() -> io::Result<()> {
    let mut output = io::BufWriter::new(io::stdout().lock());
    for line in io::stdin().lock().lines() {
        let line = line?;
        let order =
            order(&line).ok_or_else(|| io::Error::other(format!("not six numbers: {line}")))?;
        let span = bare::span(&order);
        writeln!(output, "{} {} {}", span.answer, span.lowest, span.highest)?;
    }
    output.flush()
}

fn order(line: &str) -> Option<Order> {
    let words: Result<Vec<u32>, _> = line.split_whitespace().map(str::parse).collect();
    let numbers: [u32; 6] = words.ok()?.try_into().ok()?;
    Some(Order::from(numbers))
}
