//! How a command ends, and what it writes.

use std::env;
use std::io::{self, Write};
use std::time::{Duration, Instant};

use bench::text::BadLine;

/// Why a command ends early.
pub enum Failure {
    /// The command line is wrong.
    Usage(String),
    /// Something else went wrong.
    Told(String),
    /// Several things went wrong, each told on a line of its own.
    Lines(Vec<String>),
    /// Two sheets differ, which was already told.
    Differs,
    /// Nobody reads the output any more, which is no one's fault.
    Closed,
}

pub fn usage<T>(what: impl Into<String>) -> Result<T, Failure> {
    Err(Failure::Usage(what.into()))
}

pub fn write(bytes: &[u8]) -> Result<(), Failure> {
    let mut output = io::stdout();
    output.write_all(bytes).and_then(|()| output.flush()).map_err(unwritten)
}

pub fn unread(error: io::Error) -> Failure {
    Failure::Told(format!("cannot read standard input: {error}"))
}

pub fn unwritten(error: io::Error) -> Failure {
    match error.kind() {
        io::ErrorKind::BrokenPipe => Failure::Closed,
        _ => Failure::Told(format!("cannot write standard output: {error}")),
    }
}

/// More bad lines than this are only counted.
const MOST_BAD_LINES: usize = 20;

pub fn bad_lines(bad: &[BadLine]) -> Failure {
    let told = bad.iter().take(MOST_BAD_LINES);
    let mut lines: Vec<String> =
        told.map(|BadLine { line, what }| format!("line {line}: {what}")).collect();
    if bad.len() > MOST_BAD_LINES {
        lines.push(format!("and {} more bad lines", bad.len() - MOST_BAD_LINES));
    }
    Failure::Lines(lines)
}

/// Tells something beside the output of the command that runs.
pub fn warn(what: &str) {
    let command = env::args().nth(1).unwrap_or_default();
    // If nobody hears it, that is no harm.
    let _ = writeln!(io::stderr(), "bench {command}: {what}");
}

/// How often a long run says how far it is.
const PROGRESS_EVERY: Duration = Duration::from_secs(5);

/// Tells on standard error how far a command is, now and then.
pub struct Progress {
    command: &'static str,
    told: Instant,
}

impl Progress {
    pub fn of(command: &'static str) -> Progress {
        Progress { command, told: Instant::now() }
    }

    /// Tells it if some time has gone since the last time.
    pub fn now_and_then(&mut self, what: impl FnOnce() -> String) {
        if self.told.elapsed() >= PROGRESS_EVERY {
            self.told = Instant::now();
            self.at_once(&what());
        }
    }

    pub fn at_once(&self, what: &str) {
        // If nobody hears it, that is no harm.
        let _ = writeln!(io::stderr(), "bench {}: {what}", self.command);
    }
}
