//! Running the program under test on an input.

use std::io::{self, PipeReader, PipeWriter, Read, Write};
use std::path::{Path, PathBuf};
use std::process::{Child, ChildStdin, Command, ExitStatus, Stdio};
use std::sync::mpsc::{self, Receiver};
use std::thread;
use std::time::Duration;

/// What a program may take and write, and how it must end.
#[derive(Clone, Copy)]
pub struct Bounds {
    /// A program that has not ended by then never will.
    pub patience: Duration,
    /// No answer is longer; a program that writes without end is cut off here.
    pub longest_output: u64,
    /// Whether it must end with status 0.
    pub needs_success: bool,
}

/// For a program that answers one line; the rule sets it no exit status.
pub const OF_ONE_LINE: Bounds = Bounds {
    patience: Duration::from_secs(10),
    longest_output: 4_096,
    needs_success: false,
};

/// For a program that answers histories.
pub const OF_HISTORIES: Bounds = Bounds {
    patience: Duration::from_secs(60),
    longest_output: 1 << 28,
    needs_success: true,
};

/// How an input comes down the pipe.
#[derive(Clone, Copy)]
pub enum Delivery {
    Whole,
    /// So many bytes at a time, with pauses, so that the reader sees short reads.
    Pieces(usize),
}

pub struct Program {
    path: PathBuf,
    bounds: Bounds,
    has_hung: bool,
}

impl Program {
    pub fn new(path: &Path) -> Program {
        Program::within(path, OF_ONE_LINE)
    }

    pub fn within(path: &Path, bounds: Bounds) -> Program {
        Program {
            path: path.to_path_buf(),
            bounds,
            has_hung: false,
        }
    }

    /// All that the program writes, or what went wrong.
    pub fn output_of(&mut self, input: &[u8], delivery: Delivery) -> Result<Vec<u8>, String> {
        // To be patient with every input would take hours.
        if self.has_hung {
            return Err("the program is not run again, since it hung before".to_string());
        }
        let outcome = run(&self.path, self.bounds, input, delivery);
        if let Err(error) = &outcome {
            self.has_hung = error.kind() == io::ErrorKind::TimedOut;
        }
        outcome.map_err(|error| format!("the program failed: {error}"))
    }
}

fn run(path: &Path, bounds: Bounds, input: &[u8], delivery: Delivery) -> io::Result<Vec<u8>> {
    let (reader, writer) = io::pipe()?;
    let mut child = start(path, writer)?;
    let stdin = child.stdin.take().expect("standard input is piped");
    let (done, wait) = mpsc::channel();
    thread::scope(|scope| {
        let feeder = scope.spawn(move || feed(stdin, input, delivery));
        let watcher = scope.spawn(move || watch(child, wait, bounds));
        let output = read(reader, bounds);
        drop(done);
        let status = watcher.join().expect("the watcher does not panic")?;
        feeder.join().expect("the feeder does not panic")?;
        judge(status, bounds)?;
        output
    })
}

/// Standard error goes the same way, since an answer is all that the program may write.
fn start(path: &Path, writer: PipeWriter) -> io::Result<Child> {
    let errors = writer.try_clone()?;
    Command::new(path)
        .stdin(Stdio::piped())
        .stdout(writer)
        .stderr(errors)
        .spawn()
}

/// Writes the input; the program may stop reading as soon as it knows its answer.
fn feed(mut stdin: ChildStdin, input: &[u8], delivery: Delivery) -> io::Result<()> {
    match write(&mut stdin, input, delivery) {
        Err(error) if error.kind() == io::ErrorKind::BrokenPipe => Ok(()),
        outcome => outcome,
    }
}

fn write(stdin: &mut ChildStdin, input: &[u8], delivery: Delivery) -> io::Result<()> {
    let Delivery::Pieces(size) = delivery else {
        return stdin.write_all(input);
    };
    for piece in input.chunks(size) {
        stdin.write_all(piece)?;
        stdin.flush()?;
        thread::sleep(Duration::from_micros(100));
    }
    Ok(())
}

fn read(reader: PipeReader, bounds: Bounds) -> io::Result<Vec<u8>> {
    let mut output = Vec::new();
    reader
        .take(bounds.longest_output)
        .read_to_end(&mut output)?;
    Ok(output)
}

/// Waits for the program; ends it where its output has not ended in time.
fn watch(mut child: Child, wait: Receiver<()>, bounds: Bounds) -> io::Result<ExitStatus> {
    let hangs = wait.recv_timeout(bounds.patience) == Err(mpsc::RecvTimeoutError::Timeout);
    if !hangs {
        return child.wait();
    }
    child.kill()?;
    child.wait()?;
    Err(io::Error::from(io::ErrorKind::TimedOut))
}

/// A program that a signal ended has failed, whatever status it may have.
fn judge(status: ExitStatus, bounds: Bounds) -> io::Result<()> {
    match status.code() {
        Some(0) => Ok(()),
        Some(_) if !bounds.needs_success => Ok(()),
        _ => Err(io::Error::other(status.to_string())),
    }
}
