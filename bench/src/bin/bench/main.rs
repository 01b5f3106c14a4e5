//! The command line of the bench; the work is in the library.

mod board;
mod doors;
mod files;
mod options;
mod outcome;
mod programs;
mod time;
mod usage;

use std::env;
use std::io::{self, Write};
use std::process::ExitCode;

use bench::cases;
use bench::compare::{Crowding, Drawn, Records};
use outcome::{write, Failure};

fn main() -> ExitCode {
    let args: Vec<String> =
        env::args_os().skip(1).map(|arg| arg.to_string_lossy().into_owned()).collect();
    let args: Vec<&str> = args.iter().map(String::as_str).collect();
    let (what, status) = match run(&args) {
        Ok(()) | Err(Failure::Closed) => return ExitCode::SUCCESS,
        Err(Failure::Differs) => return ExitCode::FAILURE,
        Err(Failure::Usage(what)) => (format!("bench: {what}\n\n{}", usage::text()), 2),
        Err(Failure::Told(what)) => (format!("bench {}: {what}\n", args[0]), 1),
        Err(Failure::Lines(lines)) => {
            (lines.iter().map(|what| format!("bench {}: {what}\n", args[0])).collect(), 1)
        }
    };
    // If standard error is closed too, there is nobody left to tell.
    let _ = io::stderr().write_all(what.as_bytes());
    ExitCode::from(status)
}

fn run(args: &[&str]) -> Result<(), Failure> {
    if args.first() == Some(&"help") || args.iter().any(|arg| ["--help", "-h"].contains(arg)) {
        return write(usage::text().as_bytes());
    }
    match args {
        [] => outcome::usage("no command"),
        ["print"] => files::print(),
        ["print", "drawn"] => files::print_drawn(),
        ["print", "crowd"] => files::print_crowd(),
        ["tally"] => write(files::tally()?.as_bytes()),
        ["tally", "drawn"] => write(files::tally_drawn()?.as_bytes()),
        ["pack"] => write(&files::pack()?),
        ["pack", "drawn"] => write(&files::pack_drawn()?),
        ["unpack"] => write(files::unpack()?.as_bytes()),
        ["unpack", "drawn"] => write(files::unpack_drawn()?.as_bytes()),
        ["records", rest @ ..] => board::records(rest),
        ["board", rest @ ..] => board::board(rest),
        ["draw", rest @ ..] => board::draw(rest),
        ["diff", rest @ ..] => board::diff(rest),
        ["compare", "drawn", rest @ ..] => programs::compare::<Drawn>(rest),
        ["compare", "crowd", rest @ ..] => programs::compare::<Crowding>(rest),
        ["compare", rest @ ..] => programs::compare::<Records>(rest),
        ["judge", rest @ ..] => programs::judge(rest),
        ["cases", "stdin"] => write(&cases::records()),
        ["cases", "stdout"] => write(&cases::sheet().0),
        ["cases", ..] => outcome::usage("cases takes stdin or stdout"),
        ["gen", "drawn", rest @ ..] => write(&files::generate_drawn(rest)?),
        ["gen", rest @ ..] => write(&files::generate(rest)?),
        ["questions", rest @ ..] => write(&files::questions(rest)?),
        ["time", rest @ ..] => time::time(rest),
        ["print", ..] => {
            outcome::usage("print takes nothing on the command line but 'drawn' or 'crowd'")
        }
        [command @ ("tally" | "pack" | "unpack"), ..] => {
            outcome::usage(format!("{command} takes nothing on the command line but 'drawn'"))
        }
        [command, ..] => outcome::usage(format!("unknown command '{command}'")),
    }
}
