//! The commands that hear another program: compare and judge.

use std::path::{Path, PathBuf};

use bench::compare::{self, Drawn, Form, Records, Report, Rival, Step, Wanted};
use bench::drawn::text::packed;
use bench::drawn::words::told;
use bench::launch::{check_there, proved};
use bench::peer::bench_folder;
use bench::text;

use crate::doors::{check_looks, check_named, read_file, Wanted as Looked};
use crate::outcome::{bad_lines, usage, write, Failure, Progress};

pub fn compare<F: Form>(args: &[&str]) -> Result<(), Failure> {
    let wanted = Wanted::read::<F>(args).map_err(Failure::Usage)?;
    let looked = if F::PIECES == Records::PIECES { Looked::Records } else { Looked::Pieces };
    for path in wanted.named() {
        check_named(&path.to_string_lossy(), looked)?;
    }
    let rival = rival(&wanted.program, F::PROGRAM)?;
    let mut progress = Progress::of("compare");
    let report = compare::compare::<F>(&rival, &wanted.sources::<F>(), |step| match step {
        Step::Shrinking(file) => {
            progress.at_once(&format!("{file} differs; looking for the fewest {}", F::PIECES));
        }
        Step::Compared(report) => {
            progress.now_and_then(|| format!("{} so far", F::told(&report.tally)));
        }
    });
    show(&report.map_err(Failure::Told)?)
}

fn rival(program: &Path, crate_name: &str) -> Result<Rival, Failure> {
    check_there(program, crate_name).map_err(Failure::Told)?;
    Rival::new(program).map_err(Failure::Told)
}

/// Tells the difference, if there is one, and the tally.
fn show<F: Form>(report: &Report<F>) -> Result<(), Failure> {
    let Some(found) = &report.found else {
        return write(report.told().as_bytes());
    };
    let shown = found.show(&bench_folder().join("target")).map_err(Failure::Told)?;
    match write(format!("{}\n{}", shown.text, report.told()).as_bytes()) {
        // Even if nobody reads it any more.
        Ok(()) | Err(Failure::Closed) => Err(Failure::Differs),
        Err(other) => Err(other),
    }
}

pub fn judge(args: &[&str]) -> Result<(), Failure> {
    let (program, path) = match args {
        [path] if !path.starts_with("--") => (proved(Drawn::PROGRAM), path),
        // A bare name is a file here, not a command to look for.
        ["--program", program, path] => (PathBuf::from(".").join(program), path),
        _ => return usage("judge takes [--program PROGRAM] FILE"),
    };
    let text = read_file(path)?;
    check_looks(path, &text, Looked::Text)?;
    let lines = text::read(&text).map_err(|bad| bad_lines(&bad))?;
    let file = packed(&lines);
    let run = rival(&program, Drawn::PROGRAM)?.run(&file, lines.len()).map_err(Failure::Told)?;
    if let Some(fault) = run.fault {
        return Err(Failure::Told(format!("the program {fault}")));
    }
    write(told(&lines, &run.sheet).map_err(Failure::Told)?.as_bytes())
}
