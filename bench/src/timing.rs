//! Times the proved router beside the peer, on the question files: for the wires of
//! kind 4, and for those of kind 8.

use std::fs;
use std::io::Write;
use std::path::Path;
use std::process::Stdio;
use std::time::{Duration, Instant};

use crate::launch::Way;
use crate::peer::bench_folder;
use crate::question::{average_runs, checksum_in, file_in, read, Question};
use crate::record::Mode;
use crate::stopwatch::{self, busy_note, Laps, Pair, TURNS};

/// How long a run shall take, on average over the two programs.
pub const RUN: Duration = Duration::from_millis(500);

/// What was measured on one file.
pub struct Times {
    /// Microseconds for one question.
    pub peer: f64,
    pub program: f64,
    /// The slowest run of a program over its fastest; the greater of the two.
    pub spread: f64,
}

/// Questions that are all asked in one mode.
struct Asked<'a> {
    mode: Mode,
    questions: &'a [Question],
}

pub fn head(way: &Way) -> String {
    let columns = "                     kind 4                         kind 8\n\
                   file    questions    runs    peer  proved  ratio    \
                   runs    peer  proved  ratio   8 : 4\n";
    stopwatch::head(way, "question") + columns
}

/// The line of the table for one of the question files: in either mode the runs of a
/// wire on average, the times and the program's over the peer's; then the program's
/// for kind 8 over its time for kind 4.
pub fn row(name: &str, pair: &Pair, run: Duration) -> Result<String, String> {
    let path = bench_folder().join("questions").join(name).with_extension("q");
    let bytes = fs::read(&path).map_err(|error| format!("no {}: {error}", path.display()))?;
    let questions =
        read(&bytes).ok_or_else(|| format!("{} is no question file", path.display()))?;
    let [plain, straight] = [(Mode::Plain, 4), (Mode::Straight, 8)].map(|(mode, kind)| {
        let times = times(pair, mode, &questions, run);
        times.map_err(|what| format!("{name}, kind {kind}: {what}"))
    });
    let (plain, straight) = (plain?, straight?);
    Ok(format!(
        "{name:<8}{:>9}{}{}{:>8.2}{}\n",
        questions.len(),
        plain.columns(average_runs(Mode::Plain, &questions)),
        straight.columns(average_runs(Mode::Straight, &questions)),
        straight.program / plain.program,
        busy_note(plain.spread.max(straight.spread))
    ))
}

impl Times {
    fn columns(&self, runs: f64) -> String {
        let Times { peer, program, .. } = self;
        format!("{runs:>8.1}{peer:>8.1}{program:>8.1}{:>7.2}", program / peer)
    }
}

pub fn times(
    pair: &Pair,
    mode: Mode,
    questions: &[Question],
    run: Duration,
) -> Result<Times, String> {
    let asked = Asked { mode, questions };
    check_answers(pair, &asked)?;
    let reps = reps(pair, &asked, run)?;
    let (mut peer, mut program) = (Laps::default(), Laps::default());
    for _ in 0..TURNS {
        let [one, other] = both(pair, &asked, reps)?;
        peer.add(one.as_secs_f64());
        program.add(other.as_secs_f64());
    }
    let share = 1e6 / (questions.len() as f64 * f64::from(reps));
    Ok(Times {
        peer: share * peer.least(),
        program: share * program.least(),
        spread: peer.spread().max(program.spread()),
    })
}

impl Asked<'_> {
    fn file(&self, reps: u16) -> Vec<u8> {
        file_in(self.mode, self.questions, reps)
    }
}

/// Are the answers of both those of the second router? A wrong answer may
/// be fast.
fn check_answers(pair: &Pair, asked: &Asked) -> Result<(), String> {
    let expected = format!("{}\n", checksum_in(asked.mode, asked.questions));
    for path in [&pair.peer, &pair.program] {
        let (_, told) = timed(path, &asked.file(1))?;
        if told != expected {
            let (told, expected) = (told.trim_end(), expected.trim_end());
            let path = path.display();
            return Err(format!("{path} prints {told}, the second router has {expected}"));
        }
    }
    Ok(())
}

/// How often the questions are asked for runs of about that long.
fn reps(pair: &Pair, asked: &Asked, run: Duration) -> Result<u16, String> {
    let mut reps = 1_u16;
    loop {
        let both: Duration = both(pair, asked, reps)?.iter().sum();
        if both >= run / 5 || reps >= u16::MAX / 2 {
            let share = 2.0 * run.as_secs_f64() / both.as_secs_f64();
            return Ok((f64::from(reps) * share).clamp(1.0, f64::from(u16::MAX)) as u16);
        }
        reps *= 2;
    }
}

/// One run of each, on the same input; they must print the same.
fn both(pair: &Pair, asked: &Asked, reps: u16) -> Result<[Duration; 2], String> {
    let input = asked.file(reps);
    let (peer, told) = timed(&pair.peer, &input)?;
    let (program, also_told) = timed(&pair.program, &input)?;
    if told != also_told {
        let (told, also_told) = (told.trim_end(), also_told.trim_end());
        return Err(format!("with reps {reps} the peer prints {told} and the program {also_told}"));
    }
    Ok([peer, program])
}

/// Runs a program to its end; gives how long it took and what it printed.
fn timed(path: &Path, input: &[u8]) -> Result<(Duration, String), String> {
    let failed = |error| format!("cannot run {}: {error}", path.display());
    let mut command = Way::of(path)?.command(path);
    let start = Instant::now();
    let mut child = command.stdin(Stdio::piped()).stdout(Stdio::piped()).spawn().map_err(failed)?;
    // A question file fits a pipe. If the program does not read it all, what it
    // prints or its status will tell.
    let _ = child.stdin.take().expect("a pipe").write_all(input);
    let output = child.wait_with_output().map_err(failed)?;
    let time = start.elapsed();
    if !output.status.success() {
        return Err(format!("{} ends with {}", path.display(), output.status));
    }
    Ok((time, String::from_utf8_lossy(&output.stdout).into_owned()))
}
