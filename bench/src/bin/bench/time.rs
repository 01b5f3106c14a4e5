//! The commands that time programs.

use std::path::PathBuf;

use bench::launch::{check_there, proved, Way};
use bench::limits::MAX_RECORDS;
use bench::peer::Peer;
use bench::questions::KINDS;
use bench::stopwatch::Pair;
use bench::{sheet_timing, timing};

use crate::outcome::{usage, write, Failure};

pub fn time(args: &[&str]) -> Result<(), Failure> {
    // A bare name is a file here, not a command to look for.
    let here = |program: &str| PathBuf::from(".").join(program);
    match args {
        [] => time_questions(proved("ask")),
        ["sheet"] => time_sheets(proved("trackprint")),
        ["sheet", program] => time_sheets(here(program)),
        [program] => time_questions(here(program)),
        _ => usage("time takes [sheet] [PROGRAM]"),
    }
}

fn time_questions(program: PathBuf) -> Result<(), Failure> {
    check_there(&program, "ask").map_err(Failure::Told)?;
    let (pair, way) = beside(Peer::Questions, program).map_err(Failure::Told)?;
    write(timing::head(&way).as_bytes())?;
    for kind in &KINDS {
        let row = timing::row(kind.name, &pair, timing::RUN).map_err(Failure::Told)?;
        write(row.as_bytes())?;
    }
    Ok(())
}

fn time_sheets(program: PathBuf) -> Result<(), Failure> {
    check_there(&program, "trackprint").map_err(Failure::Told)?;
    let (pair, way) = beside(Peer::Sheet, program).map_err(Failure::Told)?;
    write(sheet_timing::head(&way).as_bytes())?;
    for kind in &sheet_timing::KINDS {
        let row = sheet_timing::row(kind, &pair, MAX_RECORDS).map_err(Failure::Told)?;
        write(row.as_bytes())?;
    }
    write(sheet_timing::foot().as_bytes())
}

/// The program with its peer, to be started in the same way.
fn beside(peer: Peer, program: PathBuf) -> Result<(Pair, Way), String> {
    let way = Way::of(&program)?;
    Ok((Pair { peer: peer.built(&way)?, program }, way))
}
