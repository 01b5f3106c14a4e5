//! Drawn wires judged by the bench and by the naive router, whole files at a
//! time, and the same comparison with each slip and fault planted.

mod common;

use std::sync::OnceLock;

use bench::drawn::pieces::{split, Piece};
use bench::drawn::slip::Slip;
use bench::fault::Fault;
use bench::generate::drawn::DrawnStyle;
use bench::route::Method;
use common::drawn::sheet_by;
use common::{is_small, naive};

struct Case {
    name: String,
    file: Vec<u8>,
    expected: String,
}

/// Small files with their lines by the naive router.
fn cases() -> &'static [Case] {
    static CASES: OnceLock<Vec<Case>> = OnceLock::new();
    CASES.get_or_init(|| {
        let mut cases = Vec::new();
        for (style, files, wires) in [
            ("small", 800, 60),
            ("flush", 150, 60),
            ("bricks", 100, 60),
            ("broken", 60, 20),
            ("winding", 100, 20),
            ("maze", 60, 40),
        ] {
            let drawn = DrawnStyle::named(style).expect("a style of the generator");
            for seed in 0..files {
                let file = drawn.file(seed, wires);
                if split(&file).into_iter().all(is_small_piece) {
                    let expected = naive::drawn::sheet(&file);
                    cases.push(Case { name: format!("{style} {seed}"), file, expected });
                }
            }
        }
        cases
    })
}

fn is_small_piece(piece: &[u8]) -> bool {
    match Piece::read(piece) {
        Piece::Record(record) => is_small(record),
        Piece::Drawn(_) | Piece::Bad(_) => true,
    }
}

/// The first file of which something else is said.
fn first_difference(method: Method, fault: Fault, slip: Slip) -> Option<&'static str> {
    let differs = |case: &&Case| sheet_by(&case.file, method, fault, slip) != case.expected;
    cases().iter().find(differs).map(|case| case.name.as_str())
}

#[test]
fn the_bench_agrees_with_the_naive_router() {
    assert_eq!(first_difference(Method::Unit, Fault::None, Slip::None), None);
    assert_eq!(first_difference(Method::Wide, Fault::None, Slip::None), None);
}

#[test]
fn planted_slips_are_noticed() {
    for slip in Slip::ALL {
        let noticed = first_difference(Method::Unit, Fault::None, slip);
        assert!(noticed.is_some(), "{slip:?} went unnoticed");
    }
}

/// The excess is counted from the router's length, so its faults show too.
#[test]
fn faults_of_the_router_are_noticed() {
    for (method, fault) in [
        (Method::Unit, Fault::TrimmedBoxes),
        (Method::Unit, Fault::InteriorNodes),
        (Method::Unit, Fault::ClearedMarks),
        (Method::Wide, Fault::OuterSides),
        (Method::Unit, Fault::OpenSeams),
        (Method::Wide, Fault::OpenSeams),
    ] {
        let noticed = first_difference(method, fault, Slip::None);
        assert!(noticed.is_some(), "{fault:?} went unnoticed");
    }
}

/// The comparison is only worth something if the files have wires of every sort.
#[test]
fn the_files_have_something_to_compare() {
    let lines = || cases().iter().flat_map(|case| case.expected.lines());
    let count = |wanted: &dyn Fn(&[&str]) -> bool| {
        lines().filter(|line| wanted(&line.split(' ').collect::<Vec<_>>())).count()
    };
    for code in ["0", "2", "9", "10", "20", "22", "23", "24"] {
        let count = count(&|words| words.get(1) == Some(&code));
        assert!(count > 150, "code {code} came {count} times");
    }
    let longer = count(&|words| words.len() == 3 && words[1] == "0" && words[2] != "0");
    assert!(longer > 1_500, "{longer} wires are longer than the shortest");
    let later = count(&|words| words.len() == 3 && words[1] != "0" && words[2] != "1");
    assert!(later > 1_000, "{later} wires have a good first run and a bad one later");
}
