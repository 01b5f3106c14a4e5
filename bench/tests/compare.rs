//! The comparison: a sound program passes, a faulty one is found and shown.

mod common;

use std::fs;
use std::path::Path;
use std::process::{Command, Output, Stdio};
use std::time::Duration;

use bench::code::Code;
use bench::compare::{compare, shrink, Form, Made, Records, Report, Rival, Source};
use bench::limits::{MAX_RECORDS, RECORD_BYTES};
use bench::tally::Tally;
use common::programs::{scratch, script};
use common::{ask, bounds, keepout, lay, sheet, takeout, undo, worked_input};

fn bench_compare(program: &Path, args: &[&str]) -> Output {
    let mut command = Command::new(env!("CARGO_BIN_EXE_bench"));
    command.args(["compare", "--program"]).arg(program).args(args);
    command.output().expect("the program runs")
}

fn text(bytes: &[u8]) -> &str {
    std::str::from_utf8(bytes).expect("text")
}

fn files(records: usize, seed: u64) -> Vec<Made> {
    Records::files(records, seed)
}

fn rival(name: &str, body: &str) -> Rival {
    Rival::new(&script(name, body)).expect("a program")
}

/// Compares random files with a script.
fn compared(rival: &Rival, records: usize) -> Report {
    let sources: Vec<Source> = files(records, 1).into_iter().map(Source::Made).collect();
    compare(rival, &sources, |_| {}).expect("a comparison")
}

/// Compares, and shows the difference that there must be.
fn shown(name: &str, rival: &Rival) -> String {
    let found = compared(rival, 200).found.unwrap_or_else(|| panic!("{name} went unnoticed"));
    let shown = found.show(&scratch(&format!("shown-{name}"))).expect("it can be shown");
    assert_eq!(found.shrunk_pieces(), 0, "{name}");
    assert!(shown.picture.is_file() && shown.pieces.is_file(), "{name}");
    shown.text
}

#[test]
fn a_sound_program_passes() {
    let program = script("sound.sh", "exec BENCH print");
    let output = bench_compare(&program, &["--records", "20000", "--seed", "5"]);
    let told = text(&output.stdout);
    assert!(told.contains(", no difference\nrecords 20000\n"), "{told}");
    assert!(told.contains("\ncode 15: ") && told.contains("\nasks on 30000 x 30000: "), "{told}");
    assert!(told.contains("\nanswers that seams change: "), "{told}");
    assert_eq!(output.status.code(), Some(0));
}

/// A wire that is spelled wrong: of two ways to go on, the later one.
#[test]
fn a_faulty_wire_is_found_shrunk_and_shown() {
    // The last corner but one of every wire with a detour of 3.
    let body =
        "BENCH print | sed -E 's/^([0-9]+ 0 [0-9]+ 3 .*) [0-9]+:[0-9]+ ([0-9:]+)$/\\1 0:0 \\2/'";
    let output = bench_compare(&script("wire.sh", body), &["--records", "9000", "--seed", "77"]);
    let told = text(&output.stdout);
    assert_eq!(output.status.code(), Some(1), "{told}");
    assert!(told.starts_with("difference in small-78-1500, 1500 records\nline "), "{told}");
    let (_, shown) = told.split_once("the fewest records that show a difference: ").expect(told);
    let count: usize = shown.lines().next().and_then(|line| line.parse().ok()).expect(told);
    assert!((2..=8).contains(&count), "{told}");
    assert!(shown.contains("\n\nbounds ") && shown.contains("\n  second router: "), "{told}");
    assert!(shown.contains("\n  program:       ") && shown.contains(" 0:0 "), "{told}");
    assert!(told.contains("\nfiles 2, a difference\n"), "{told}");
    let named = |word: &str| shown.lines().find_map(|line| line.strip_prefix(word)).expect(told);
    let picture = fs::read_to_string(named("picture ")).expect("a picture");
    let drawn = |class: &str| {
        let line = |line: &str| line.starts_with("<polyline ") && line.ends_with(class);
        picture.lines().any(line)
    };
    assert!(drawn("class=\"last\"/>") && drawn("class=\"other\"/>"), "{picture}");
    let records = fs::read(named("records ")).expect("the records");
    assert_eq!(records.chunks(RECORD_BYTES).count(), count);
    // The shrunk file shows the difference again, and nothing is left to drop.
    let again = bench_compare(&scratch("wire.sh"), &[named("records ")]);
    assert_eq!(again.status.code(), Some(1));
    assert!(text(&again.stdout).contains(&format!("difference: {count}\n")));
}

#[test]
fn a_faulty_code_is_found_and_shrunk() {
    let report = compared(&rival("code.sh", "BENCH print | sed 's/ 15$/ 0/'"), 20_000);
    let found = report.found.expect("a difference");
    // Bounds, and an undo with nothing to undo.
    assert_eq!(found.shrunk_pieces(), 2);
}

/// What is only wrong after a long history takes that history to show.
#[test]
fn a_fault_that_needs_many_records_keeps_them() {
    let report = compared(&rival("late.sh", "BENCH print | sed '/^40 /s/ 0/ 7/'"), 3_000);
    assert_eq!(report.found.expect("a difference").shrunk_pieces(), 40);
}

#[test]
fn other_ends_are_differences_too() {
    for (name, body, told) in [
        ("cut.sh", "BENCH print | sed '$d'", "program:       no such line"),
        ("more.sh", "BENCH print; echo more", "program:       more"),
        ("open.sh", "BENCH print | tr -d '\\n'", "and no line end"),
        ("silent.sh", "true", "program:       no such line"),
        ("wide.sh", "printf '%0800d\\n' 7", "00... (800 bytes)"),
        ("status.sh", "BENCH print; exit 3", "the program ends with exit status: 3"),
        ("killed.sh", "BENCH print; kill -9 $$", "the program ends with signal: 9"),
        ("endless.sh", "exec yes", "the program prints without end"),
    ] {
        let text = shown(name, &rival(name, body));
        assert!(text.contains(told), "{name}: {text}");
    }
}

#[test]
fn a_program_that_hangs_is_stopped() {
    let rival = rival("hanging.sh", "exec sleep 60").waiting(Duration::from_secs(1));
    let text = shown("hanging.sh", &rival);
    assert!(text.contains("the program goes on after 1.0 s"), "{text}");
}

/// The status says so even if nobody reads the rest.
#[test]
fn a_closed_output_hides_no_difference() {
    let program = script("unread.sh", "BENCH print | sed 's/^2 /3 /'");
    let mut command = Command::new(env!("CARGO_BIN_EXE_bench"));
    command.args(["compare", "--records", "60", "--seed", "31", "--program"]).arg(program);
    let mut child = command.stdout(Stdio::piped()).spawn().expect("the program starts");
    drop(child.stdout.take());
    assert_eq!(child.wait().expect("the program ends").code(), Some(1));
}

#[test]
fn named_files_are_compared() {
    let file = scratch("worked.rec");
    fs::write(&file, worked_input()).expect("a folder to write to");
    let name = file.to_str().expect("a path");
    let sound = script("sound-named.sh", "exec BENCH print");
    let output = bench_compare(&sound, &[name, name]);
    assert!(text(&output.stdout).starts_with("files 2, no difference\nrecords 20\n"));
    assert_eq!(output.status.code(), Some(0));
    let output = bench_compare(&sound, &[name, "no-such-file"]);
    assert!(text(&output.stderr).starts_with("bench compare: cannot read no-such-file"));
    assert_eq!(output.status.code(), Some(1));
}

#[test]
fn a_missing_program_is_told() {
    let output = bench_compare(&scratch("none"), &[]);
    let told = text(&output.stderr);
    assert!(
        told.starts_with("bench compare: no program at ") && told.contains("'rt run' in crates/trackprint"),
        "{told}"
    );
    assert_eq!(output.status.code(), Some(1));
}

/// The default of half a million records holds each code a thousand times, 11 and
/// 18 two thousand times with either pin, 20,000 answers that seams change and 500
/// times 8 by a seam alone, 50,000 accepted kinds 8 and 9, 10,000 of them unlike kind
/// 4's wire, and some dozen where that gets 13. Here a tenth of it is counted; the two
/// longest files, which are not in it, have fewer blocked pins and seams.
#[test]
fn the_mix_of_files_reaches_enough() {
    let records = 50_000;
    let mut all = Tally::default();
    for made in files(records, 1) {
        all.add(&Tally::of(made.file().as_slice()).expect("memory can be read"));
    }
    assert_eq!(all.records(), records);
    assert!(3 * all.wires >= records, "few wires\n{all}");
    assert!(4 * all.detours >= all.wires, "few detours\n{all}");
    assert!(all.widest_asks >= 2_000, "{all}");
    for number in Code::NUMBERS {
        assert!(all.code(number) >= 110, "code {number}\n{all}");
    }
    for count in [all.in_keepout, all.near_wire].concat() {
        assert!(count >= 300, "few blocked pins\n{all}");
    }
    assert!(all.in_both >= 300 && all.near_several >= 150, "{all}");
    assert!(all.changed_by_seams >= 2_700 && all.closing_seams >= 150, "{all}");
    assert!(all.straight.accepted() >= 5_500 && all.straight.unlike >= 2_000, "{all}");
    assert!(all.straight.past_limit >= 8, "{all}");
}

#[test]
fn a_long_comparison_has_files_at_the_sheets_end() {
    let names = |records: usize| -> Vec<String> {
        files(records, 9).iter().map(|made| made.name()).collect()
    };
    assert_eq!(names(0), ["mixed-9-0"]);
    let few = ["mixed-9-0", "small-10-1500", "widest-11-1700", "history-12-800"];
    assert_eq!(names(4_000), few);
    let many = names(500_000);
    let [.., end, cut] = many.as_slice() else { panic!("few files") };
    let count = |name: &str| name.rsplit('-').next().and_then(|count| count.parse().ok());
    assert_eq!((count(end), count(cut)), (Some(MAX_RECORDS), Some(MAX_RECORDS + 1)));
    let lines = |name: &String| count(name).map(|count: usize| count.min(MAX_RECORDS));
    assert_eq!(many.iter().filter_map(lines).sum::<usize>(), 500_000);
}

/// Shrinks by a rule in the place of a program.
fn shrunk(records: &[Vec<u8>], first: Option<usize>, differs: impl Fn(&[u8]) -> bool) -> Vec<u8> {
    let patience = Duration::from_secs(60);
    shrink::<Records>(&records.concat(), first, patience, |file| differs(file))
}

fn holds(file: &[u8], record: &[u8]) -> bool {
    file.chunks(RECORD_BYTES).any(|piece| piece == record)
}

#[test]
fn shrinking_leaves_what_is_needed() {
    let mut records: Vec<Vec<u8>> = (1..=200).map(|id| keepout(id, 0, 0, 1, 1)).collect();
    records.insert(0, bounds(10, 10, 1));
    records.push(ask(1, 1, 2, 2));
    let needed = [&records[0], &records[57], &records[133], &records[201]];
    let all = |file: &[u8]| needed.iter().all(|record| holds(file, record));
    let expected: Vec<u8> = needed.iter().flat_map(|record| record.iter().copied()).collect();
    assert_eq!(shrunk(&records, Some(202), all), expected);
    assert_eq!(shrunk(&records, None, all), expected);
    // Without patience nothing is tried but the cut after the record.
    let file = records.concat();
    assert_eq!(shrink::<Records>(&file, None, Duration::ZERO, all), file);
}

/// Of a long history only what stands is needed, and that is seen at once.
#[test]
fn shrinking_begins_with_what_stands() {
    let mut records = vec![bounds(10, 10, 1), keepout(9, 3, 2, 6, 8), lay(4, 0, 0, 10, 0)];
    for _ in 0..500 {
        records.extend([lay(5, 0, 4, 0, 7), ask(1, 5, 8, 5), takeout(5), keepout(6, 7, 7, 9, 9)]);
        records.push(undo());
    }
    records.push(ask(1, 5, 8, 5));
    // The keep-out must stand, whatever else does.
    let around = |file: &[u8]| sheet(file).contains(" 0 13 3 1:5 3:5 3:8 8:8 8:5\nend\n");
    let mut tries = 0;
    let file = records.concat();
    let patience = Duration::from_secs(60);
    let shrunk = shrink::<Records>(&file, Some(records.len()), patience, |file| {
        tries += 1;
        around(file)
    });
    assert_eq!(
        shrunk,
        [&records[0], &records[1], &records[records.len() - 1]].map(|r| r.as_slice()).concat()
    );
    assert!(tries < 20, "{tries} tries");
}

/// Two records of which one is needed, and a third only beside the second.
#[test]
fn shrinking_goes_on_until_nothing_falls() {
    let (a, b, c) = (lay(1, 0, 0, 1, 1), lay(2, 0, 0, 1, 1), undo());
    let rule =
        |file: &[u8]| (holds(file, &a) || holds(file, &b)) && (holds(file, &a) || holds(file, &c));
    assert_eq!(shrunk(&[a.clone(), b.clone(), c.clone()], Some(3), rule), a);
}
