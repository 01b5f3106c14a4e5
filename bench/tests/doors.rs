//! What the program says to those who hand it the wrong thing.

mod common;

use std::fs;
use std::path::PathBuf;
use std::process::Output;

use common::programs::{bench, scratch};
use common::{bounds, undo, worked_input};

fn text(bytes: &[u8]) -> &str {
    std::str::from_utf8(bytes).expect("text")
}

fn assert_told(output: &Output, status: i32, told: &str) {
    assert_eq!(text(&output.stderr), told);
    assert_eq!(output.status.code(), Some(status), "{told}");
}

fn file(name: &str, bytes: &[u8]) -> String {
    let path: PathBuf = scratch(name);
    fs::write(&path, bytes).expect("a folder to write to");
    path.to_str().expect("a plain name").to_string()
}

#[test]
fn help_goes_to_standard_output() {
    for args in [&["--help"][..], &["-h"], &["help"], &["draw", "--help"], &["compare", "-h"]] {
        let output = bench(args, b"");
        assert!(text(&output.stdout).starts_with("usage: bench COMMAND"), "{args:?}");
        assert_told(&output, 0, "");
    }
}

#[test]
fn text_is_told_from_records() {
    let worked = b"\xef\xbb\xbf# a board\n\nbounds 10 10 2\n";
    for command in ["print", "tally", "unpack"] {
        let told = "standard input is text, not records; 'bench pack' makes records of it\n";
        assert_told(&bench(&[command], worked), 1, &format!("bench {command}: {told}"));
    }
    for command in ["print", "tally", "unpack"] {
        let told = "standard input is text, not pieces; 'bench pack drawn' makes pieces of it\n";
        assert_told(&bench(&[command, "drawn"], worked), 1, &format!("bench {command}: {told}"));
    }
    let told = "bench pack: standard input is no text, but looks like records; \
                'bench unpack' makes text of them\n";
    assert_told(&bench(&["pack"], &worked_input()), 1, told);
    assert_told(&bench(&["pack", "drawn"], &worked_input()), 1, told);
    let wide = b"\xff\xfeb\0o\0";
    let told = "is text of 16-bit characters; save it as UTF-8\n";
    assert_told(&bench(&["pack"], wide), 1, &format!("bench pack: standard input {told}"));
    assert_told(&bench(&["draw"], wide), 1, &format!("bench draw: standard input {told}"));
    // A long text of which only the beginning is looked at, which ends within a letter.
    let long = format!("undo # {}", "\u{e9}".repeat(5_000));
    assert_eq!(bench(&["print"], long.as_bytes()).status.code(), Some(1));
    assert_eq!(bench(&["print"], format!(" {long}").as_bytes()).status.code(), Some(1));
    // What merely has no odd bytes may be a record file all the same.
    assert_eq!(text(&bench(&["print"], b"short").stdout), "1 1\nend\n");
}

#[test]
fn a_named_file_of_the_wrong_sort() {
    let (folder, none) = (env!("CARGO_TARGET_TMPDIR"), "no/such/file");
    let plain = file("doors.txt", b"undo\n");
    for command in [&["records"][..], &["judge"], &["compare"], &["diff", &plain]] {
        let with = |path| bench(&[command, &[path]].concat(), b"");
        let name = command[0];
        let told = format!("bench {name}: cannot read {folder}: it is a folder, not a file\n");
        assert_told(&with(folder), 1, &told);
        let told = format!("bench {name}: cannot read {none}: there is no such file\n");
        assert_told(&with(none), 1, &told);
    }
    let told =
        format!("bench compare: {plain} is text, not records; 'bench pack' makes records of it\n");
    assert_told(&bench(&["compare", &plain], b""), 1, &told);
    let records = file("doors.rec", &worked_input());
    let told = format!(
        "bench judge: {records} is no text, but looks like records; 'bench unpack' makes text of them\n"
    );
    assert_told(&bench(&["judge", &records], b""), 1, &told);
}

#[test]
fn nothing_at_all_is_said() {
    for (command, printed) in [("print", "end\n"), ("pack", ""), ("unpack", ""), ("records", "")] {
        let output = bench(&[command], b"");
        assert_eq!(text(&output.stdout), printed);
        assert_told(&output, 0, &format!("bench {command}: standard input is empty\n"));
    }
    let output = bench(&["draw"], b"");
    assert!(text(&output.stdout).contains("no board"));
    assert_told(&output, 0, "bench draw: standard input is empty\n");
}

#[test]
fn all_bad_lines_are_told_up_to_twenty() {
    let three = bench(&["pack"], b"undo\nask 1\n\nhop\nbounds 1 2 x\n");
    assert_told(
        &three,
        1,
        "bench pack: line 2: ask takes 4 numbers (sx sy tx ty), not 1\n\
         bench pack: line 4: unknown word 'hop'; known are bounds, keepout, lay, ask, takeout, undo, askstraight, laystraight, \
         bytes, draw, rest\n\
         bench pack: line 5: clearance is 'x', not a number from 0 to 65535\n",
    );
    let many = bench(&["pack"], "hop\n".repeat(25).as_bytes());
    let told = text(&many.stderr);
    assert_eq!(told.lines().count(), 21);
    assert_eq!(told.lines().last(), Some("bench pack: and 5 more bad lines"));
}

#[test]
fn a_byte_order_mark_is_taken() {
    let marked = b"\xef\xbb\xbfbounds 9 9 1\r\nundo\r\n";
    for args in [&["pack"][..], &["records"]] {
        let output = bench(args, marked);
        assert_eq!(output.stdout, [bounds(9, 9, 1), undo()].concat());
        assert_told(&output, 0, "");
    }
}

#[test]
fn noughts_are_packed_with_a_warning() {
    let output = bench(&["pack"], b"bounds 9 0 1\nlay 0 1 2 3 4\ntakeout 00\nask 0 0 0 1\n");
    assert_eq!(output.stdout.len(), 4 * 12);
    assert_told(
        &output,
        0,
        "bench pack: line 1: warning: H is 0, which gets code 3\n\
         bench pack: line 2: warning: id is 0, which gets code 1\n\
         bench pack: line 3: warning: id is 0, which gets code 1\n",
    );
}
