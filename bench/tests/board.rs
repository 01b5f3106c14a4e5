//! The commands of the designer's day, with their options: board, draw, records, diff.

mod common;

use std::fs;
use std::process::Output;

use common::programs::{bench, scratch};
use common::{sheet, worked_input, WORKED_SHEET};

const TEXT: &str =
    "# the worked board\nbounds 10 10 2\nkeepout 1 3 2 6 8\nlay 7 1 5 8 5\nask 1 1 9 9\n";
const SHEET: &str = "1 0\n2 0\n3 0 13 3 1:5 3:5 3:8 8:8 8:5\n4 18 2 7\nend\n";

fn text(bytes: &[u8]) -> &str {
    std::str::from_utf8(bytes).expect("text")
}

/// A file for a test, by its name.
fn file(name: &str, bytes: &[u8]) -> String {
    let path = scratch(name);
    fs::write(&path, bytes).expect("a folder to write to");
    path.to_str().expect("a plain name").to_string()
}

fn read(path: &str) -> String {
    fs::read_to_string(path).expect("it was written")
}

fn assert_usage(output: &Output, what: &str) {
    assert_eq!(output.status.code(), Some(2), "{what}");
    assert!(
        text(&output.stderr).starts_with(&format!("bench: {what}")),
        "{}",
        text(&output.stderr)
    );
}

#[test]
fn each_line_is_told_with_its_answer() {
    let (text_file, sheet_file) =
        (file("told.txt", TEXT.as_bytes()), file("told.sheet", SHEET.as_bytes()));
    let output = bench(&["board", "--sheet", &sheet_file, &text_file], b"");
    assert_eq!(
        text(&output.stdout),
        format!(
            "{text_file}: text, 4 records\n\
             line 2: bounds 10 10 2: a new board, 10 \u{d7} 10, clearance 2\n\
             line 3: keepout 1 3 2 6 8: added; 1 of 46 blocks\n\
             line 4: lay 7 1 5 8 5: laid: length 13, detour 3, 4 runs: 1:5 3:5 3:8 8:8 8:5; 5 of 46 blocks\n\
             line 5: ask 1 1 9 9: refused, 18: pin 2 (9,9) is within 2 of wire 7\n\
             3 accepted, 1 refused; both routers say the same\n\
             picture {text_file}.svg\npage {text_file}.html\n"
        )
    );
    assert_eq!((text(&output.stderr), output.status.code()), ("", Some(0)));
    let picture = read(&format!("{text_file}.svg"));
    assert!(picture.contains("wires by the proved router") && picture.contains("refused, 18"));
    assert!(read(&format!("{text_file}.html")).starts_with("<!DOCTYPE html>"));
}

#[test]
fn records_from_standard_input_go_where_they_are_told() {
    let sheet_file = file("records.sheet", WORKED_SHEET.as_bytes());
    let to = scratch("elsewhere");
    let to = to.to_str().expect("a plain name");
    let output = bench(&["board", "--sheet", &sheet_file, "--to", to, "-"], &worked_input());
    let told = text(&output.stdout);
    assert!(
        told.starts_with("standard input: records, 10 records\nrecord 1: bounds 10 10 2: "),
        "{told}"
    );
    assert!(told.ends_with(&format!("picture {to}.svg\npage {to}.html\n")), "{told}");
    // Nothing is left on the board, so no answer is drawn on it.
    let picture = read(&format!("{to}.svg"));
    assert!(picture.contains("the last answer, to 'ask 1 5 9 9', no longer stands"));
    assert!(!picture.contains("class=\"pin\""));
}

#[test]
fn a_sheet_that_differs_stops_it() {
    let sheet_file = file("differs.sheet", SHEET.replace("18 2 7", "18 1 7").as_bytes());
    let text_file = file("differs.txt", TEXT.as_bytes());
    let output = bench(&["board", "--sheet", &sheet_file, &text_file], b"");
    assert_eq!((output.stdout.as_slice(), output.status.code()), (&b""[..], Some(1)));
    let told = text(&output.stderr);
    assert!(told.starts_with("bench board: the two routers differ at line 5"), "{told}");
    assert!(
        told.contains("the sheet:         4 18 1 7\n")
            && told.contains("second router: 4 18 2 7\n")
    );
    assert!(!scratch("differs.txt.svg").exists() && !scratch("differs.txt.html").exists());
}

#[test]
fn a_cut_sheet_is_told() {
    let records = vec![0; 12 * 65_536];
    let sheet_file = file("cut.sheet", sheet(&records).as_bytes());
    let to = scratch("cut");
    let args = ["board", "--sheet", &sheet_file, "--to", to.to_str().expect("a plain name")];
    let output = bench(&args, &records);
    assert!(text(&output.stdout)
        .contains("\ncut: a sheet ends after 65535 records\n0 accepted, 65535 refused"));
}

#[test]
fn wrong_options_of_board() {
    let takes = "board takes --sheet SHEET [--to NAME] [FILE]";
    for args in [
        &["board"][..],
        &["board", "x"],
        &["board", "--sheet", "x", "a", "b"],
        &["board", "--sheet", "x", "--so"],
    ] {
        assert_usage(&bench(args, b""), takes);
    }
    assert_usage(&bench(&["board", "--sheet"], b""), "--sheet lacks its value");
    assert_usage(&bench(&["board", "--to"], b""), "--to lacks its value");
    assert_usage(&bench(&["records", "a", "b"], b""), "records takes [FILE]");
}

#[test]
fn text_and_records_become_records() {
    assert_eq!(bench(&["records", "-"], &worked_input()).stdout, worked_input());
    let text_file = file("become.txt", TEXT.as_bytes());
    assert_eq!(bench(&["records", &text_file], b"").stdout, worked_input()[..48]);
}

#[test]
fn draw_takes_a_sheet_a_number_and_a_window() {
    let sheet_file = file("draw.sheet", WORKED_SHEET.as_bytes());
    let draw = |args: &[&str]| bench(&[&["draw"], args].concat(), &worked_input());
    let whole = draw(&["--sheet", &sheet_file]);
    assert!(text(&whole.stdout).contains("after record 10 of 10; wires by the proved router"));
    let own = draw(&["--after", "4"]);
    let own = text(&own.stdout);
    assert!(own.contains("after record 4 of 10; wires by the second router, not the proved one"));
    assert!(own.contains("refused, 18: pin 2 (9,9) is within 2 of wire 7"));
    let window = draw(&["--after", "3", "--window", "2", "4", "9", "9", "--sheet", &sheet_file]);
    assert!(text(&window.stdout).contains("a part of the board"));
    // Text does as well, and before the first record there is no board.
    assert!(text(&bench(&["draw", "--after", "0"], TEXT.as_bytes()).stdout).contains("no board"));
}

#[test]
fn wrong_options_of_draw() {
    let draw = |args: &[&str]| bench(&[&["draw"], args].concat(), &worked_input());
    assert_usage(&draw(&["--after"]), "--after lacks its value");
    assert_usage(&draw(&["--after", "x"]), "--after: 'x' is not a number");
    assert_usage(&draw(&["--window", "1", "2", "3"]), "--window takes 4 numbers");
    assert_usage(&draw(&["--far"]), "draw takes nothing on the command line but");
    for (args, told) in [
        (&["--after", "11"][..], "--after: there are only 10 records"),
        (
            &["--after", "3", "--window", "0", "0", "11", "5"],
            "--window 0 0 11 5 is no part of the board",
        ),
        (&["--window", "3", "0", "3", "5"], "--window 3 0 3 5 is no part of the board"),
        (&["--sheet", "no/such"], "cannot read no/such: there is no such file"),
    ] {
        let output = draw(args);
        assert!(
            text(&output.stderr).starts_with(&format!("bench draw: {told}")),
            "{}",
            text(&output.stderr)
        );
        assert_eq!(output.status.code(), Some(1));
    }
    let other = file("other.sheet", b"1 0\n2 0\nend\n");
    assert!(text(&draw(&["--sheet", &other]).stderr).contains("the two routers differ at record 3"));
}

#[test]
fn two_boards_are_compared() {
    let one =
        file("one.txt", b"bounds 10 10 1\nkeepout 1 3 2 6 8\nkeepout 2 0 0 1 1\nlay 7 1 5 8 5\n");
    let other =
        file("other.txt", b"bounds 10 12 1\nkeepout 1 3 2 6 8\nlay 7 1 4 8 4\nlay 9 0 9 9 9\n");
    let picture = scratch("diff.svg");
    let picture = picture.to_str().expect("a plain name");
    let output = bench(&["diff", "--svg", picture, &one, &other], b"");
    assert_eq!(
        text(&output.stdout),
        format!(
            "from {one} to {other}, wires by the second router\n\
             the board: 10 \u{d7} 10, clearance 1, now 10 \u{d7} 12, clearance 1\n\
             gone     keep-out 2 (0,0)-(1,1)\n\
             changed  wire 7 (1,5) (3,5) (3,8) (8,8) (8,5)\n      to wire 7 (1,4) (3,4) (3,2) (8,2) (8,4)\n\
             added    wire 9 (0,9) (9,9)\n\
             1 added, 1 gone, 1 changed\n"
        )
    );
    let svg = read(picture);
    for (class, count) in [("gone", 2), ("added", 2)] {
        // Each once more in the legend.
        assert_eq!(svg.matches(&format!("class=\"{class}\"")).count(), count + 1, "{class}");
    }
    let same = bench(&["diff", &one, &one], b"");
    assert_eq!(
        text(&same.stdout),
        format!("from {one} to {one}, wires by the second router\n0 added, 0 gone, 0 changed\n")
    );
}

#[test]
fn wrong_options_of_diff() {
    for args in
        [&["diff"][..], &["diff", "a"], &["diff", "a", "b", "c"], &["diff", "--so", "a", "b"]]
    {
        assert_usage(&bench(args, b""), "diff takes [--svg PICTURE] A B");
    }
    assert_usage(&bench(&["diff", "a", "b", "--svg"], b""), "--svg lacks its value");
}
