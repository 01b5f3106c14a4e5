//! Times the proved sheet printer beside its peer, on whole files.
//!
//! A file is as long as a sheet goes. Beside the time for one record stands how
//! much it grows from the file's first fifth to the whole: a program that looks
//! back at all records before would show there. The fifth is run five times for
//! that, so that a busy machine has as much time to disturb it.

use std::fs::{self, File};
use std::path::Path;
use std::process::Stdio;
use std::time::Instant;

use crate::generate::Style;
use crate::launch::Way;
use crate::limits::RECORD_BYTES;
use crate::scratch::Scratch;
use crate::stopwatch::{self, busy_note, Laps, Pair, TURNS};
use crate::tally::Tally;

/// Into so many parts a file is cut, of which the first is timed too. The
/// longest file has 5 x 13,107 records.
const PARTS: usize = 5;

/// The files, each from its fixed seed.
pub struct Kind {
    pub name: &'static str,
    pub about: &'static str,
    seed: u64,
    /// Are all parts the same records as the first?
    repeats: bool,
}

pub const KINDS: [Kind; 3] = [
    Kind {
        name: "mixed",
        about: "boards of every style, the same fifth of the file five times",
        seed: 1,
        repeats: true,
    },
    Kind {
        name: "long",
        about: "one board near 46 blocks and 32 kept changes, for the whole file",
        seed: 46_032,
        repeats: false,
    },
    Kind {
        name: "bricks",
        about: "boards of keep-outs that share sides, the same fifth of the file five times",
        seed: 3,
        repeats: true,
    },
];

/// A file with its sheet.
pub struct Job {
    records: Vec<u8>,
    sheet: Vec<u8>,
    tally: Tally,
}

/// The files to be run: nothing, the first part, all.
struct Jobs {
    none: Job,
    part: Job,
    all: Job,
}

/// What the runs of one program took.
#[derive(Default)]
struct Runs {
    none: Laps,
    /// The first part as often as there are parts.
    parts: Laps,
    all: Laps,
}

impl Kind {
    /// The file with `count` records, which the number of parts divides.
    pub fn file(&self, count: usize) -> Vec<u8> {
        let style = Style::named(self.name).expect("a style");
        let part = count / PARTS;
        let mut file = style.file(self.seed, if self.repeats { part } else { count });
        // A short last piece is made a whole record, so that records can follow.
        file.resize(file.len().next_multiple_of(RECORD_BYTES), 0);
        if self.repeats {
            file = file.repeat(PARTS);
        }
        file
    }
}

impl Job {
    fn new(records: &[u8]) -> Job {
        let mut sheet = Vec::new();
        let tally = Tally::printing(records, &mut sheet).expect("memory can be read and written");
        Job { records: records.to_vec(), sheet, tally }
    }

    /// Runs a program on the file; gives the seconds that it took. What it
    /// prints must be the second router's sheet: a wrong answer may be fast.
    fn run(&self, program: &Path, scratch: &Scratch) -> Result<f64, String> {
        let failed = |error| format!("cannot run {}: {error}", program.display());
        let input = scratch.write("stdin", &self.records)?;
        let output = scratch.path("stdout");
        let mut command = Way::of(program)?.command(program);
        command.stdin(Stdio::from(File::open(input).map_err(failed)?));
        command.stdout(Stdio::from(File::create(&output).map_err(failed)?));
        let start = Instant::now();
        let status = command.status().map_err(failed)?;
        let time = start.elapsed();
        if !status.success() {
            return Err(format!("{} ends with {status}", program.display()));
        }
        if fs::read(&output).map_err(failed)? != self.sheet {
            let program = program.display();
            return Err(format!("{program} does not print the second router's sheet"));
        }
        Ok(time.as_secs_f64())
    }
}

impl Jobs {
    fn run(&self, program: &Path, runs: &mut Runs, scratch: &Scratch) -> Result<(), String> {
        runs.none.add(self.none.run(program, scratch)?);
        runs.all.add(self.all.run(program, scratch)?);
        let mut parts = 0.0;
        for _ in 0..PARTS {
            parts += self.part.run(program, scratch)?;
        }
        runs.parts.add(parts);
        Ok(())
    }

    fn records(&self) -> f64 {
        self.all.tally.records() as f64
    }

    /// Microseconds for one record of the whole file.
    fn each(&self, runs: &Runs) -> f64 {
        1e6 * runs.all.least() / self.records()
    }
}

impl Runs {
    /// The time for the whole file over that for its first part as often, both
    /// without the program's starts.
    fn growth(&self) -> f64 {
        let start = self.none.least();
        (self.all.least() - start) / (self.parts.least() - PARTS as f64 * start)
    }
}

pub fn head(way: &Way) -> String {
    let columns =
        "file     records   wires       peer     proved   ratio   growth: peer   proved\n";
    stopwatch::head(way, "record") + columns
}

/// The line of the table for a file of that many records.
pub fn row(kind: &Kind, pair: &Pair, count: usize) -> Result<String, String> {
    let file = kind.file(count);
    let part = &file[..count / PARTS * RECORD_BYTES];
    let jobs = Jobs { none: Job::new(&[]), part: Job::new(part), all: Job::new(&file) };
    let scratch = Scratch::new()?;
    let (mut peer, mut program) = (Runs::default(), Runs::default());
    let told = |what| format!("{}: {what}", kind.name);
    for _ in 0..TURNS {
        jobs.run(&pair.peer, &mut peer, &scratch).map_err(told)?;
        jobs.run(&pair.program, &mut program, &scratch).map_err(told)?;
    }
    let (one, other) = (jobs.each(&peer), jobs.each(&program));
    Ok(format!(
        "{:<8}{:>8}{:>6.0} %{one:>11.1}{other:>11.1}{:>8.2}{:>15.2}{:>9.2}{}\n",
        kind.name,
        jobs.records(),
        100.0 * jobs.all.tally.wires as f64 / jobs.records(),
        other / one,
        peer.growth(),
        program.growth(),
        busy_note(peer.all.spread().max(program.all.spread()))
    ))
}

/// What stands below the table.
pub fn foot() -> String {
    let mut text = format!(
        "growth: the time for the whole file over {PARTS} times that for its first fifth,\n\
         without the program's start\n"
    );
    for kind in &KINDS {
        text += &format!("{:<8} {}\n", kind.name, kind.about);
    }
    text
}
