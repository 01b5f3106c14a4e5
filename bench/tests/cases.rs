//! The fixed cases: what they reach, and that the stored files are these.

use std::fs;
use std::sync::OnceLock;

use bench::board::Board;
use bench::cases::{self, records};
use bench::code::Code;
use bench::fault::Fault;
use bench::limits::{MAX_RECORDS, RECORD_BYTES};
use bench::peer::bench_folder;
use bench::route::{Method, Router};
use bench::sheet::print;
use bench::tally::Tally;

/// The sheet of the cases, printed once for all tests.
fn sheet() -> &'static (Vec<u8>, Tally) {
    static SHEET: OnceLock<(Vec<u8>, Tally)> = OnceLock::new();
    SHEET.get_or_init(cases::sheet)
}

#[test]
fn they_reach_what_a_file_can_reach() {
    let (sheet, tally) = sheet();
    assert!((20_000..=MAX_RECORDS).contains(&tally.records()), "{tally}");
    for number in Code::NUMBERS {
        assert!(tally.code(number) >= 5, "code {number}\n{tally}");
    }
    for count in [tally.in_keepout, tally.near_wire].concat() {
        assert!(count >= 20, "few blocked pins\n{tally}");
    }
    for (runs, count) in tally.runs.iter().enumerate().skip(1) {
        assert!(*count >= 1, "{runs} runs came {count} times\n{tally}");
    }
    assert!(tally.widest_asks >= 3_000, "{tally}");
    assert!(tally.changed_by_seams >= 700 && tally.closing_seams >= 40, "{tally}");
    assert!(3 * tally.wires >= tally.records(), "{tally}");
    assert!(4 * tally.detours >= tally.wires, "{tally}");
    assert!(tally.straight.asks >= 2_000 && tally.straight.lays >= 500, "{tally}");
    assert!(tally.straight.unlike >= 1_000 && tally.straight.past_limit >= 5, "{tally}");
    assert!(sheet.ends_with(b"\nend\n"));
}

#[test]
fn they_begin_before_bounds_and_end_short() {
    let (sheet, _) = sheet();
    assert!(sheet.starts_with(b"1 2\n"));
    assert_ne!(records().len() % RECORD_BYTES, 0);
}

/// Each wrong reading of document 02's orders 2 and 6 would be seen, and order 3 left
/// out.
#[test]
fn they_show_what_is_told_of_blocked_pins_seams_and_turns() {
    let records = records();
    let faults = Fault::OF_PINS.into_iter().chain(Fault::OF_TURNS);
    for fault in faults.chain([Fault::OpenSeams]) {
        let (mut sound, router) = (Board::default(), Router::new(Method::BySize, fault));
        let mut faulty = Board::with_router(router);
        let mut pieces = records.chunks(RECORD_BYTES);
        let first = pieces.position(|piece| sound.take(piece) != faulty.take(piece));
        assert!(first.is_some(), "{fault:?} goes unnoticed");
    }
}

/// The cases as they were before order 6: kinds 3 and 4 keep every answer. Some of
/// the records that no one could read then are of kind 8 now.
#[test]
fn the_cases_before_order_6_keep_their_lines() {
    let old = bench_folder().join("tests").join("data").join("cases-before-order-6");
    let records = fs::read(old.with_extension("rec")).expect("the old records");
    let lines = fs::read_to_string(old.with_extension("txt")).expect("the old sheet");
    let mut sheet = Vec::new();
    print(records.as_slice(), &mut sheet, Board::default(), |_| {}).expect("memory");
    let sheet = String::from_utf8(sheet).expect("a sheet is text");
    assert_eq!(sheet.lines().count(), lines.lines().count());
    let mut changed = 0;
    for (number, (line, old)) in sheet.lines().zip(lines.lines()).enumerate() {
        if line != old {
            let kind = records[number * RECORD_BYTES];
            assert!(kind == 8 && old == format!("{} 1", number + 1), "{line}, {old}");
            changed += 1;
        }
    }
    assert_eq!(changed, 11);
}

/// The crate that runs the cases reads and expects these files.
#[test]
fn the_stored_files_are_these() {
    let folder = bench_folder().with_file_name("crates").join("cases");
    for (name, made) in [("stdin", &records()), ("stdout", &sheet().0)] {
        let path = folder.join(name);
        let stored = fs::read(&path).unwrap_or_else(|error| panic!("{}: {error}", path.display()));
        assert!(stored == *made, "{} is not what 'bench cases {name}' writes", path.display());
    }
}
