//! The comparison of crowding sheets: a sound program passes, a faulty one is found
//! and shown, and the random files hold enough of everything.

mod common;

use std::fs;
use std::path::Path;
use std::process::{Command, Output};

use bench::compare::{compare, Crowding, Form, Made, Report, Rival, Source};
use bench::crowd::tally::Tally;
use bench::limits::{MAX_RECORDS, RECORD_BYTES};
use common::programs::{scratch, script};
use common::{bounds, keepout};

fn bench_compare(program: &Path, args: &[&str]) -> Output {
    let mut command = Command::new(env!("CARGO_BIN_EXE_bench"));
    command.args(["compare", "crowd", "--program"]).arg(program).args(args);
    command.output().expect("the program runs")
}

fn text(bytes: &[u8]) -> &str {
    std::str::from_utf8(bytes).expect("text")
}

/// Compares random files with a script.
fn compared(name: &str, body: &str, files: usize) -> Report<Crowding> {
    let rival = Rival::new(&script(name, body)).expect("a program");
    let sources: Vec<Source> = Crowding::files(files, 1).into_iter().map(Source::Made).collect();
    compare(&rival, &sources, |_| {}).expect("a comparison")
}

#[test]
fn a_sound_program_passes() {
    let program = script("crowd-sound.sh", "exec BENCH print crowd");
    let output = bench_compare(&program, &["--files", "45", "--seed", "5"]);
    let told = text(&output.stdout);
    assert!(told.starts_with("files 45, no difference\nsheets "), "{told}");
    assert!(told.contains(", files before bounds ") && told.contains("\ntracks "), "{told}");
    assert_eq!(output.status.code(), Some(0));
}

/// A program that leaves the seam of two keep-outs open: here, one that says so of a
/// track with three edges.
#[test]
fn an_altered_line_is_found_shrunk_and_shown() {
    let program = script("crowd-line.sh", "BENCH print crowd | sed 's/^\\(x .*\\) 2 1$/\\1 3 3/'");
    let output = bench_compare(&program, &["--files", "200", "--seed", "7"]);
    let told = text(&output.stdout);
    assert_eq!(output.status.code(), Some(1), "{told}");
    let (_, shown) = told.split_once("the fewest records that show a difference: ").expect(told);
    let count: usize = shown.lines().next().and_then(|line| line.parse().ok()).expect(told);
    assert!((2..=6).contains(&count), "{told}");
    assert!(shown.contains("\n\nbounds ") && shown.contains("\n  second router: x "), "{told}");
    assert!(shown.contains(" 2 1\n  program:       x ") && shown.contains(" 3 3\n"), "{told}");
    let named = |word: &str| shown.lines().find_map(|line| line.strip_prefix(word)).expect(told);
    let picture = fs::read_to_string(named("picture ")).expect("a picture");
    assert!(picture.contains("class=\"shut\"") && picture.contains(">open from the low end<"));
    let records = fs::read(named("records ")).expect("the records");
    assert_eq!(records.chunks(RECORD_BYTES).count(), count);
    // The shrunk file shows the difference again.
    let again = bench_compare(&program, &[named("records ")]);
    assert_eq!(again.status.code(), Some(1));
    assert!(text(&again.stdout).contains(&format!("difference: {count}\n")));
}

#[test]
fn other_alterations_are_found() {
    for (name, body, records) in [
        // No bounds yet, a letter, a track left out, the last line, another order.
        ("early.sh", "BENCH print crowd | sed 's/^2$/0/'", 0..=0),
        ("letter.sh", "BENCH print crowd | sed 's/^y /x /'", 1..=1),
        ("side.sh", "BENCH print crowd | sed '/^x 0 /d'", 1..=1),
        ("end.sh", "BENCH print crowd | sed '$d'", 0..=0),
        ("order.sh", "BENCH print crowd | sort", 0..=1),
        ("status.sh", "BENCH print crowd; exit 3", 0..=0),
    ] {
        let found = compared(&format!("crowd-{name}"), body, 20).found;
        let found = found.unwrap_or_else(|| panic!("{name} went unnoticed"));
        assert!(records.contains(&found.shrunk_pieces()), "{name}: {}", found.shrunk_pieces());
    }
}

/// What only stands past the 64th edge takes many records to show.
#[test]
fn a_fault_past_the_64th_edge_is_found() {
    let body = "BENCH print crowd | sed -E 's/ (6[5-9]|[789].)$/ 64/'";
    let found = compared("crowd-word.sh", body, 40).found.expect("a difference");
    assert!(found.shrunk_pieces() > 25, "{}", found.shrunk_pieces());
}

#[test]
fn named_files_are_compared() {
    let file = scratch("named-crowd.rec");
    let seam = [bounds(9, 9, 1), keepout(1, 0, 3, 4, 6), keepout(2, 4, 3, 9, 6)];
    fs::write(&file, seam.concat()).expect("a folder to write to");
    let name = file.to_str().expect("a path");
    let sound = script("crowd-named.sh", "exec BENCH print crowd");
    let output = bench_compare(&sound, &[name, name]);
    let told = text(&output.stdout);
    assert!(told.starts_with("files 2, no difference\nsheets 2, files before"), "{told}");
    assert!(told.contains("\ntracks 14, wide open 12, shut 0\nedges 34, open 32\n"), "{told}");
    assert!(told.contains("\nsheets that seams change: 2\n"), "{told}");
}

#[test]
fn a_missing_program_is_told() {
    let output = bench_compare(&scratch("none"), &[]);
    assert!(text(&output.stderr).contains("run 'rt run' in crates/crowdprint first"));
    assert_eq!(output.status.code(), Some(1));
}

/// Of the default of 5,000 files, the first 300.
#[test]
fn the_mix_of_files_reaches_enough() {
    let mut all = Tally::default();
    for made in Crowding::files(300, 1) {
        all.add(&Crowding::print(&made.file()).tally);
    }
    assert_eq!(all.sheets + all.before_bounds, 300);
    assert!(all.before_bounds >= 10 && all.widest >= 10, "{all}");
    assert!(all.tracks >= 9_000 && all.shut_tracks >= 100, "{all}");
    assert!(all.open_edges >= 200_000 && all.edges - all.open_edges >= 40_000, "{all}");
    assert!(all.changed_by_seams >= 40 && all.beyond_word >= 12, "{all}");
    assert!(all.open_beyond >= 600 && all.stretch_beyond >= 80, "{all}");
}

/// One file is as long as is read, and two are longer; what is over is a record that
/// would give another sheet, or no record.
#[test]
fn a_long_comparison_has_files_at_the_limit() {
    let files = Crowding::files(5_000, 9);
    assert_eq!(files.len(), 5_000);
    let names: Vec<String> = files.iter().map(Made::name).collect();
    assert_eq!(names[0], "mixed-9-0");
    let over = format!("-{}", MAX_RECORDS + 1);
    assert_eq!(names.iter().filter(|name| name.ends_with(&over)).count(), 2);
    assert!(names[4_997].ends_with(&format!("-{MAX_RECORDS}")));
    assert_eq!(Crowding::files(0, 9).len(), 0);
    let [byte, file] = [4_998, 4_999].map(|number| files[number].file());
    let (read, left) = file.split_at(RECORD_BYTES * MAX_RECORDS);
    assert_eq!((byte.len() - read.len(), left.len()), (1, RECORD_BYTES));
    let sheet = |file: &[u8]| String::from_utf8(Crowding::print(file).sheet).expect("text");
    assert_eq!(sheet(&file), sheet(read).replace("end\n", "cut\n"));
    assert!(sheet(left).contains("\nx 77 ") && !sheet(&file).contains("\nx 77 "));
}
