//! The bench against the naive router, whole sheets at a time, and the same
//! comparison with each fault planted.

mod common;

use std::sync::OnceLock;

use bench::fault::Fault;
use bench::generate::Style;
use bench::limits::RECORD_BYTES;
use bench::route::Method;
use common::{is_small, naive, sheet_by};

struct Case {
    name: String,
    file: Vec<u8>,
    expected: String,
}

/// Small files with their sheets by the naive router.
fn cases() -> &'static [Case] {
    static CASES: OnceLock<Vec<Case>> = OnceLock::new();
    CASES.get_or_init(|| {
        let mut cases = Vec::new();
        for (style, files, records) in [
            ("small", 1_500, 100),
            ("flush", 300, 100),
            ("broken", 200, 100),
            ("maze", 60, 60),
            ("pins", 100, 100),
            ("bricks", 300, 100),
        ] {
            let style = Style::named(style).expect("a style of the generator");
            for seed in 0..files {
                let file = style.file(seed, records);
                if file.chunks(RECORD_BYTES).all(is_small) {
                    let expected = naive::sheet(&file);
                    cases.push(Case { name: format!("{} {seed}", style.name), file, expected });
                }
            }
        }
        cases
    })
}

/// The first file whose sheet differs from the naive router's.
fn first_difference(method: Method, fault: Fault) -> Option<&'static str> {
    let differs = |case: &&Case| sheet_by(&case.file, method, fault) != case.expected;
    cases().iter().find(differs).map(|case| case.name.as_str())
}

#[test]
fn both_searches_agree_with_the_naive_router() {
    assert_eq!(first_difference(Method::Unit, Fault::None), None);
    assert_eq!(first_difference(Method::Wide, Fault::None), None);
}

#[test]
fn planted_faults_are_noticed() {
    for (method, fault) in [
        (Method::Unit, Fault::TrimmedBoxes),
        (Method::Wide, Fault::TrimmedBoxes),
        (Method::Wide, Fault::OuterSides),
        (Method::Unit, Fault::InteriorNodes),
        (Method::Wide, Fault::InteriorNodes),
        (Method::Unit, Fault::ClearedMarks),
        (Method::Unit, Fault::OpenSeams),
        (Method::Wide, Fault::OpenSeams),
    ] {
        assert!(first_difference(method, fault).is_some(), "{method:?} {fault:?} went unnoticed");
    }
    for fault in Fault::OF_PINS.into_iter().chain(Fault::OF_TURNS) {
        assert!(first_difference(Method::Unit, fault).is_some(), "{fault:?} went unnoticed");
    }
    for fault in Fault::OF_TURNS.into_iter().skip(3) {
        assert!(first_difference(Method::Wide, fault).is_some(), "{fault:?} went unnoticed");
    }
}

/// The comparison is only worth something if the files get wires accepted,
/// with detours, and reach refusals of the search too.
#[test]
fn the_files_have_something_to_compare() {
    let lines = || cases().iter().flat_map(|case| case.expected.lines());
    let words = |line: &str| line.split(' ').map(str::to_string).collect::<Vec<_>>();
    let wires: Vec<Vec<String>> = lines().map(words).filter(|line| line.len() > 4).collect();
    let detours = wires.iter().filter(|line| line[3] != "0").count();
    assert!(wires.len() > 50_000, "{} wires", wires.len());
    assert!(4 * detours > wires.len(), "{detours} detours of {}", wires.len());
    for code in ["1", "4", "5", "6", "7", "8", "9", "10", "12", "15"] {
        let count = lines().map(words).filter(|line| line.len() == 2 && line[1] == code).count();
        assert!(count > 300, "code {code} came {count} times");
    }
    for told in [" 11 1 ", " 11 2 ", " 18 1 ", " 18 2 "] {
        let count = lines().filter(|line| line.contains(told)).count();
        assert!(count > 300, "{told}came {count} times");
    }
}
