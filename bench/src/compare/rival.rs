//! The program that is compared: started on a file, waited for, read.

use std::fs::{self, File};
use std::io::Read;
use std::path::{Path, PathBuf};
use std::process::{Child, ExitStatus, Stdio};
use std::thread;
use std::time::{Duration, Instant};

use crate::launch::Way;
use crate::scratch::Scratch;

/// A program that takes longer is stopped: so long, and for each piece.
const LONGEST_START: Duration = Duration::from_secs(20);
const LONGEST_PIECE: Duration = Duration::from_millis(10);
/// A program that prints more than this for a line is stopped too; what comes
/// after is not read.
const LONGEST_LINE: u64 = 1_000;
/// How long one waits before looking again; it begins low, since most files
/// are short, and doubles.
const FIRST_LOOK: Duration = Duration::from_micros(200);
const LAST_LOOK: Duration = Duration::from_millis(10);

pub struct Rival {
    program: PathBuf,
    way: Way,
    scratch: Scratch,
    longest_start: Duration,
}

/// What a run of the program came to.
pub struct Run {
    pub sheet: Vec<u8>,
    /// What went wrong, if the program did not end as it should.
    pub fault: Option<String>,
}

impl Rival {
    pub fn new(program: &Path) -> Result<Rival, String> {
        let way = Way::of(program)?;
        let program = program.to_path_buf();
        Ok(Rival { program, way, scratch: Scratch::new()?, longest_start: LONGEST_START })
    }

    /// The same, with less patience.
    pub fn waiting(self, longest_start: Duration) -> Rival {
        Rival { longest_start, ..self }
    }

    /// Runs the program on a file of so many pieces. Both ends are files, so that
    /// nothing is lost if the program stops reading or does not stop printing.
    pub fn run(&self, file: &[u8], pieces: usize) -> Result<Run, String> {
        let failed = |error| format!("cannot run {}: {error}", self.program.display());
        let input = self.scratch.write("stdin", file)?;
        let output = self.scratch.path("stdout");
        let mut child = self
            .way
            .command(&self.program)
            .stdin(Stdio::from(File::open(input).map_err(failed)?))
            .stdout(Stdio::from(File::create(&output).map_err(failed)?))
            .stderr(Stdio::null())
            .spawn()
            .map_err(failed)?;
        // Each piece has a line at most, and there is a last one. A crowding sheet
        // has up to 188 lines of 14 bytes, less than bounds and one more piece may
        // print; after bounds alone it has four.
        let lines = pieces + 1;
        let fault = self.wait(&mut child, &output, lines);
        let mut sheet = Vec::new();
        let printed = File::open(&output).map_err(failed)?;
        printed.take(most_bytes(lines)).read_to_end(&mut sheet).map_err(failed)?;
        Ok(Run { sheet, fault })
    }

    /// Waits for the end; a program that goes on too long is stopped.
    fn wait(&self, child: &mut Child, output: &Path, lines: usize) -> Option<String> {
        let (start, mut look) = (Instant::now(), FIRST_LOOK);
        let longest = self.longest_start + LONGEST_PIECE * lines as u32;
        let most = most_bytes(lines);
        loop {
            match child.try_wait() {
                Ok(None) => {}
                Ok(Some(status)) => return told(status),
                Err(error) => return Some(format!("is lost: {error}")),
            }
            let printed = fs::metadata(output).map_or(0, |about| about.len());
            let fault = match (printed > most, start.elapsed() > longest) {
                (true, _) => Some("prints without end".to_string()),
                (false, true) => Some(format!("goes on after {:.1} s", longest.as_secs_f64())),
                (false, false) => None,
            };
            if fault.is_some() {
                // It may have ended by itself just now, which is as good.
                let _ = child.kill();
                let _ = child.wait();
                return fault;
            }
            thread::sleep(look);
            look = (look * 2).min(LAST_LOOK);
        }
    }
}

/// More than a sheet of so many lines can have.
fn most_bytes(lines: usize) -> u64 {
    LONGEST_LINE * lines as u64
}

fn told(status: ExitStatus) -> Option<String> {
    (!status.success()).then(|| format!("ends with {status}"))
}
