//! Crowding sheets by unit edges, by blocks and by the naive router, and the same
//! comparison with each slip and fault planted.

mod common;

use std::sync::OnceLock;

use bench::crowd::slip::Slip;
use bench::fault::Fault;
use bench::generate::Style;
use bench::limits::RECORD_BYTES;
use bench::route::Method;
use common::crowd::sheet_by;
use common::{is_below, is_small, naive};

struct Case {
    name: String,
    file: Vec<u8>,
    expected: String,
}

/// Small files with their sheets by the naive router. Most are cut off somewhere, so
/// that the last board is one in the making.
fn cases() -> &'static [Case] {
    static CASES: OnceLock<Vec<Case>> = OnceLock::new();
    CASES.get_or_init(|| {
        let mut cases = Vec::new();
        for (style, files, records) in [
            ("small", 300, 40),
            ("flush", 100, 60),
            ("bricks", 100, 60),
            ("broken", 60, 40),
            ("broken", 40, 20),
            ("pins", 40, 40),
            ("crowded", 300, 66),
        ] {
            let style = Style::named(style).expect("a style of the generator");
            for seed in 0..files {
                let file = style.file(seed, records - (seed % 7) as usize);
                if is_quick(&file) {
                    let expected = naive::crowd::sheet(&file);
                    cases.push(Case { name: format!("{} {seed}", style.name), file, expected });
                }
            }
        }
        cases
    })
}

/// The naive router takes long over a wire.
fn is_quick(file: &[u8]) -> bool {
    let records = || file.chunks(RECORD_BYTES);
    let wires = |record: &&[u8]| matches!(record[0], 3 | 4);
    let narrow = records().all(|record| is_below(record, 400));
    narrow || (records().all(is_small) && records().filter(wires).count() <= 12)
}

/// The first file whose sheet differs from the naive router's.
fn first_difference(method: Method, fault: Fault, slip: Slip) -> Option<&'static str> {
    let differs = |case: &&Case| sheet_by(&case.file, method, fault, slip) != case.expected;
    cases().iter().find(differs).map(|case| case.name.as_str())
}

#[test]
fn both_ways_agree_with_the_naive_router() {
    assert_eq!(first_difference(Method::Unit, Fault::None, Slip::None), None);
    assert_eq!(first_difference(Method::Wide, Fault::None, Slip::None), None);
}

#[test]
fn planted_slips_are_noticed() {
    for method in [Method::Unit, Method::Wide] {
        for slip in Slip::ALL {
            let noticed = first_difference(method, Fault::None, slip);
            assert!(noticed.is_some(), "{method:?} {slip:?} went unnoticed");
        }
    }
}

#[test]
fn faults_of_the_router_are_noticed() {
    for (method, fault) in [
        (Method::Unit, Fault::TrimmedBoxes),
        (Method::Wide, Fault::TrimmedBoxes),
        (Method::Unit, Fault::InteriorNodes),
        (Method::Wide, Fault::InteriorNodes),
        (Method::Unit, Fault::ClearedMarks),
        (Method::Unit, Fault::OpenSeams),
        (Method::Wide, Fault::OpenSeams),
    ] {
        let noticed = first_difference(method, fault, Slip::None);
        assert!(noticed.is_some(), "{method:?} {fault:?} went unnoticed");
    }
}

/// A sheet that was not made anew after the latest record of a kind.
#[test]
fn sheets_of_older_boards_are_noticed() {
    for kind in [1, 2, 3, 5, 6] {
        let is_older = |case: &&Case| {
            let mut records: Vec<&[u8]> = case.file.chunks(RECORD_BYTES).collect();
            let latest = records.iter().rposition(|record| record[0] == kind);
            latest.is_some_and(|latest| {
                records.remove(latest);
                let sheet = sheet_by(&records.concat(), Method::Wide, Fault::None, Slip::None);
                sheet != case.expected
            })
        };
        let count = cases().iter().filter(is_older).count();
        assert!(count >= 40, "kind {kind}: {count} sheets are others");
    }
}

/// Boards that are too large for the naive router.
#[test]
fn the_two_ways_agree_on_larger_boards() {
    let mut compared = 0;
    for (style, files, records) in [("crowded", 60, 64), ("history", 40, 90), ("full", 20, 70)] {
        for seed in 1_000..1_000 + files {
            let file = Style::named(style).expect("a style").file(seed, records);
            let by = |method| sheet_by(&file, method, Fault::None, Slip::None);
            if file.chunks(RECORD_BYTES).all(|record| is_below(record, 200_000)) {
                assert_eq!(by(Method::Unit), by(Method::Wide), "{style} {seed}");
                compared += 1;
            }
        }
    }
    assert!(compared >= 60, "{compared} files");
}

/// The comparison is only worth something if the sheets have something of each.
#[test]
fn the_files_have_something_to_compare() {
    let lines = || cases().iter().flat_map(|case| case.expected.lines());
    let tracks: Vec<[usize; 2]> = lines().filter_map(counts).collect();
    let count = |wanted: &dyn Fn(&[usize; 2]) -> bool| tracks.iter().filter(|t| wanted(t)).count();
    assert!(tracks.len() > 8_000, "{} tracks", tracks.len());
    assert!(count(&|[open, _]| *open == 0) > 100, "few shut tracks");
    assert!(count(&|[open, stretch]| open > stretch) > 2_000, "few broken stretches");
    assert!(count(&|[open, _]| *open > 64) > 200, "few tracks with over 64 open edges");
    assert!(count(&|[_, stretch]| *stretch > 64) > 80, "few stretches over 64");
    assert!(lines().filter(|line| *line == "2").count() > 20, "few files before bounds");
}

/// The open edges and the stretch, if it is the line of a track.
fn counts(line: &str) -> Option<[usize; 2]> {
    let words: Vec<&str> = line.split(' ').collect();
    let [_, _, open, stretch] = words[..] else { return None };
    Some([open.parse().ok()?, stretch.parse().ok()?])
}
