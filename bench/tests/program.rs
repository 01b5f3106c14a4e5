//! The program itself: what it prints, where, and with which status.

mod common;

use std::fs::File;
use std::io::{Read, Write};
use std::process::{Command, Stdio};

use common::programs::bench as run;
use common::{worked_input, WORKED_SHEET};

fn bench(args: &[&str]) -> Command {
    let mut command = Command::new(env!("CARGO_BIN_EXE_bench"));
    command.args(args).stdin(Stdio::piped()).stdout(Stdio::piped()).stderr(Stdio::piped());
    command
}

fn text(bytes: &[u8]) -> &str {
    std::str::from_utf8(bytes).expect("text")
}

/// The worked input as text.
const WORKED_TEXT: &str = "\
bounds 10 10 2
keepout 1 3 2 6 8
lay 7 1 5 8 5
ask 1 1 9 9
takeout 7
ask 1 5 9 9
undo
undo
undo
undo
";

#[test]
fn prints_the_worked_sheet() {
    let output = run(&["print"], &worked_input());
    assert_eq!(text(&output.stdout), WORKED_SHEET);
    assert_eq!(text(&output.stderr), "");
    assert_eq!(output.status.code(), Some(0));
}

#[test]
fn prints_an_empty_file_and_a_cut_one() {
    assert_eq!(text(&run(&["print"], b"").stdout), "end\n");
    let file = vec![0; 12 * 65_535 + 1];
    let output = run(&["print"], &file);
    assert!(text(&output.stdout).ends_with("\n65535 1\ncut\n"));
    assert_eq!(output.status.code(), Some(0));
}

#[test]
fn packs_and_unpacks() {
    let packed = run(&["pack"], WORKED_TEXT.as_bytes());
    assert_eq!(packed.stdout, worked_input());
    assert_eq!(packed.status.code(), Some(0));
    let unpacked = run(&["unpack"], &worked_input());
    assert_eq!(text(&unpacked.stdout), WORKED_TEXT);
    assert_eq!(unpacked.status.code(), Some(0));
}

#[test]
fn a_bad_line_packs_nothing() {
    let output = run(&["pack"], b"undo\nask 1 2 3\nundo\n");
    assert_eq!(output.stdout, b"");
    let told = "bench pack: line 2: ask takes 4 numbers (sx sy tx ty), not 3\n";
    assert_eq!(text(&output.stderr), told);
    assert_eq!(output.status.code(), Some(1));
}

#[test]
fn tallies() {
    let output = run(&["tally"], &worked_input());
    let lines: Vec<&str> = text(&output.stdout).lines().collect();
    assert_eq!(lines[..2], ["records 10", "code 0: 8"]);
    assert!(lines.contains(&"code 11: 0, pin 1 0, pin 2 0, near a wire too 0"));
    assert!(lines.contains(&"code 18: 1, pin 1 0, pin 2 1, near several 0"));
    assert!(lines.contains(&"code 15: 1"));
    assert!(lines.contains(&"accepted lays and asks 2 (20.0 %), with a detour 1 (50.0 %)"));
    assert!(lines.contains(&"4 runs: 2"));
    assert_eq!(output.status.code(), Some(0));
}

#[test]
fn generates() {
    let output = run(&["gen", "1", "small", "50"], b"");
    assert_eq!(output.stdout.len(), 600);
    assert_eq!(output.status.code(), Some(0));
    assert_eq!(run(&["gen", "1", "small"], b"").stdout.len(), 24_000);
}

#[test]
fn draws() {
    for args in [&["draw"][..], &["draw", "--crowd"]] {
        let output = run(args, &worked_input());
        let picture = text(&output.stdout);
        assert!(picture.starts_with("<svg ") && picture.ends_with("</svg>\n"), "{args:?}");
        assert_eq!(picture.contains("class=\"stretch\""), args.len() == 2);
        assert_eq!(output.status.code(), Some(0));
    }
}

#[test]
fn prints_the_crowding_sheet() {
    let output = run(&["print", "crowd"], &worked_input());
    assert_eq!(text(&output.stdout), "x 0 1 1\nx 10 1 1\ny 0 1 1\ny 10 1 1\nend\n");
    assert_eq!(text(&output.stderr), "");
    assert_eq!(output.status.code(), Some(0));
    assert_eq!(text(&run(&["print", "crowd"], b"short").stdout), "2\nend\n");
    assert_eq!(run(&["gen", "1", "crowded", "2"], b"").stdout.len(), 24);
}

/// Sees that a command line is refused with these words and the usage.
fn assert_wrong(args: &[&str], what: &str) {
    let output = run(args, b"");
    assert_eq!(output.status.code(), Some(2), "{args:?}");
    assert_eq!(output.stdout, b"", "{args:?}");
    let told = text(&output.stderr);
    assert!(told.starts_with(&format!("bench: {what}")), "{args:?} told {told}");
    assert!(told.contains("\nusage: bench COMMAND"), "{args:?} told {told}");
}

#[test]
fn a_wrong_command_line_shows_the_usage() {
    for (args, what) in [
        (&[][..], "no command"),
        (&["paint"], "unknown command 'paint'"),
        (&["print", "x"], "print takes nothing"),
        (&["print", "crowd", "x"], "print takes nothing"),
        (&["draw", "x"], "draw takes nothing"),
        (&["draw", "--crowd", "x"], "draw takes nothing"),
        (&["compare", "crowd", "--files", "-1"], "--files is '-1', not a number"),
        (&["compare", "crowd", "--records", "1"], "compare does not know --records"),
        (&["gen"], "gen takes SEED STYLE [COUNT]"),
        (&["gen", "1"], "gen takes SEED STYLE [COUNT]"),
        (&["gen", "1", "small", "2", "3"], "gen takes SEED STYLE [COUNT]"),
        (&["gen", "one", "small"], "SEED is 'one'"),
        (&["gen", "1", "tiny"], "unknown STYLE 'tiny'"),
        (&["gen", "1", "small", "-1"], "COUNT is '-1'"),
        (&["questions"], "questions takes NAME"),
        (&["questions", "mid", "2"], "questions takes NAME"),
        (&["questions", "tiny"], "unknown NAME 'tiny'"),
        (&["time", "ask", "2"], "time takes [sheet] [PROGRAM]"),
        (&["time", "sheet", "trackprint", "2"], "time takes [sheet] [PROGRAM]"),
        (&["cases"], "cases takes stdin or stdout"),
        (&["cases", "stdin", "2"], "cases takes stdin or stdout"),
        (&["compare", "--records"], "--records lacks its value"),
        (&["compare", "--records", "-1"], "--records is '-1', not a number"),
        (&["compare", "--seed", "one"], "--seed is 'one', not a number"),
        (&["compare", "--style", "small"], "compare does not know --style"),
    ] {
        assert_wrong(args, what);
    }
}

#[test]
fn so_does_a_wrong_one_for_drawn_wires() {
    for (args, what) in [
        (&["print", "drawn", "x"][..], "print takes nothing"),
        (&["pack", "x"], "pack takes nothing"),
        (&["gen", "drawn", "1"], "gen drawn takes SEED STYLE [WIRES]"),
        (&["gen", "drawn", "1", "tiny"], "unknown STYLE 'tiny'"),
        (&["gen", "drawn", "1", "small", "x"], "WIRES is 'x'"),
        (&["judge"], "judge takes [--program PROGRAM] FILE"),
        (&["judge", "--program", "x"], "judge takes [--program PROGRAM] FILE"),
        (&["compare", "drawn", "--wires", "-1"], "--wires is '-1', not a number"),
        (&["compare", "drawn", "--records", "1"], "compare does not know --records"),
    ] {
        assert_wrong(args, what);
    }
}

#[test]
fn packs_prints_and_tallies_drawn_wires() {
    let text_of = b"bounds 9 9 1\nkeepout 1 3 3 6 6\ndraw 0 4 9 4\ndraw 0 0 9 0\n";
    let packed = run(&["pack", "drawn"], text_of);
    assert_eq!(packed.stdout.len(), 2 * 13 + 2 * 10);
    assert_eq!(run(&["unpack", "drawn"], &packed.stdout).stdout, text_of);
    let printed = run(&["print", "drawn"], &packed.stdout);
    assert_eq!(text(&printed.stdout), "1 20 1\n2 0 0\nend\n");
    assert_eq!(printed.status.code(), Some(0));
    let tally = run(&["tally", "drawn"], &packed.stdout);
    assert!(text(&tally.stdout).starts_with("drawn wires 2\ncode 0: 1\n"));
    let made = run(&["gen", "drawn", "1", "small", "50"], b"");
    assert_eq!(run(&["print", "drawn"], &made.stdout).stdout.split(|b| *b == b'\n').count(), 52);
}

/// A directory can be opened but not read.
#[test]
fn a_failed_read_is_told() {
    let commands = ["print", "tally", "pack", "unpack", "draw"].map(|command| vec![command]);
    let drawn = ["print", "tally", "pack", "unpack"].map(|command| vec![command, "drawn"]);
    let crowd = [vec!["print", "crowd"], vec!["draw", "--crowd"]];
    for command in commands.into_iter().chain(drawn).chain(crowd) {
        let input = File::open(env!("CARGO_MANIFEST_DIR")).expect("it can be opened");
        let output = bench(&command).stdin(input).output().expect("the program runs");
        assert_eq!(output.stdout, b"", "{command:?}");
        assert!(text(&output.stderr).starts_with(&format!("bench {}: cannot read ", command[0])));
        assert_eq!(output.status.code(), Some(1), "{command:?}");
    }
}

#[test]
fn a_closed_output_ends_it_quietly() {
    let mut child = bench(&["print"]).spawn().expect("the program starts");
    let mut stdin = child.stdin.take().expect("a pipe");
    let mut stdout = child.stdout.take().expect("a pipe");
    let feeder = std::thread::spawn(move || {
        // More than fits the pipes; it fails when the program has ended.
        let _ = stdin.write_all(&vec![0; 12 * 60_000]);
    });
    let mut first = [0; 4];
    stdout.read_exact(&mut first).expect("some output");
    assert_eq!(&first, b"1 1\n");
    drop(stdout);
    let output = child.wait_with_output().expect("the program ends");
    feeder.join().expect("the feeder ends");
    assert_eq!(text(&output.stderr), "");
    assert_eq!(output.status.code(), Some(0));
}

#[test]
fn a_failed_write_is_told() {
    let full = File::options().write(true).open("/dev/full").expect("a device that is full");
    let mut child = bench(&["print"]).stdout(full).spawn().expect("the program starts");
    drop(child.stdin.take());
    let output = child.wait_with_output().expect("the program ends");
    assert!(text(&output.stderr).starts_with("bench print: cannot write standard output"));
    assert_eq!(output.status.code(), Some(1));
}
