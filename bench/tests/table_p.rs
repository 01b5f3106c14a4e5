//! Document 01's Table P, line by line, and its four ways astray. The expected
//! answers are the document's own; where it says 11, document 02's order 2 says
//! the rest, and P11 is as its order 3 has it.

mod common;

use bench::fault::Fault;
use bench::route::Method;
use common::{answers_by, ask, bounds, keepout, lay, takeout};

/// The answer to the last record, the same by both searches.
fn answer(records: &[Vec<u8>]) -> String {
    let by = |method| answers_by(records, method, Fault::None).pop().expect("some record");
    let (unit, wide) = (by(Method::Unit), by(Method::Wide));
    assert_eq!(unit, wide, "the two searches differ");
    unit
}

fn board(clearance: u16) -> Vec<u8> {
    bounds(10, 10, clearance)
}

/// P3's keep-out.
fn block() -> Vec<u8> {
    keepout(1, 3, 2, 6, 8)
}

/// P6's wire, laid on the empty board.
fn wall() -> Vec<u8> {
    lay(7, 5, 0, 5, 10)
}

#[test]
fn p1() {
    assert_eq!(answer(&[board(1), ask(0, 0, 10, 10)]), "0 20 0 0:0 10:0 10:10");
}

#[test]
fn p2() {
    assert_eq!(answer(&[board(1), ask(10, 10, 0, 0)]), "0 20 0 10:10 0:10 0:0");
}

#[test]
fn p3() {
    assert_eq!(answer(&[board(1), block(), ask(1, 5, 8, 5)]), "0 13 3 1:5 3:5 3:8 8:8 8:5");
}

#[test]
fn p4() {
    assert_eq!(answer(&[board(1), block(), ask(8, 5, 1, 5)]), "0 13 3 8:5 8:8 1:8 1:5");
}

#[test]
fn p5() {
    let thin = keepout(1, 4, 0, 5, 10);
    assert_eq!(answer(&[board(1), thin, ask(2, 5, 8, 5)]), "0 16 5 2:5 4:5 4:10 8:10 8:5");
}

#[test]
fn p6() {
    assert_eq!(answer(&[board(1), wall()]), "0 10 0 5:0 5:10");
    assert_eq!(answer(&[board(1), wall(), ask(2, 5, 8, 5)]), "12");
}

#[test]
fn p7() {
    assert_eq!(answer(&[board(1), wall(), ask(4, 0, 4, 10)]), "0 10 0 4:0 4:10");
    assert_eq!(answer(&[board(2), wall()]), "0 10 0 5:0 5:10");
    assert_eq!(answer(&[board(2), wall(), ask(4, 0, 4, 10)]), "18 1 7");
}

#[test]
fn p8() {
    assert_eq!(answer(&[board(1), block(), ask(3, 2, 6, 8)]), "0 9 0 3:2 6:2 6:8");
}

#[test]
fn p9() {
    assert_eq!(answer(&[board(1), block(), ask(4, 5, 8, 5)]), "11 1 1");
}

#[test]
fn p10() {
    assert_eq!(answer(&[board(1), block(), ask(4, 5, 4, 5)]), "10");
}

#[test]
fn p11() {
    let (left, right) = (keepout(1, 2, 2, 5, 8), keepout(2, 5, 2, 8, 8));
    let records = [board(1), left, right, ask(5, 0, 5, 10)];
    assert_eq!(answer(&records), "0 16 3 5:0 8:0 8:10 5:10");
    // As document 01 had it before seams were closed.
    for method in [Method::Unit, Method::Wide] {
        assert_eq!(answers_by(&records, method, Fault::OpenSeams)[3], "0 10 0 5:0 5:10");
    }
}

#[test]
fn p12() {
    assert_eq!(answer(&[board(1), ask(11, 0, 0, 0)]), "9");
}

/// "P5 would come out as 6" if edges were blocked by interior nodes.
#[test]
fn astray_by_interior_nodes() {
    let records = [board(1), keepout(1, 4, 0, 5, 10), ask(2, 5, 8, 5)];
    assert_eq!(answer(&records), "0 16 5 2:5 4:5 4:10 8:10 8:5");
    for method in [Method::Unit, Method::Wide] {
        let wrong = answers_by(&records, method, Fault::InteriorNodes);
        assert_eq!(wrong[2], "0 6 0 2:5 8:5");
    }
}

/// "P6 would find a way along y = 0" if a wire's box were trimmed.
#[test]
fn astray_by_trimmed_boxes() {
    let records = [board(1), wall(), ask(2, 5, 8, 5)];
    assert_eq!(answer(&records), "12");
    for method in [Method::Unit, Method::Wide] {
        let wrong = answers_by(&records, method, Fault::TrimmedBoxes);
        assert!(wrong[2].starts_with("0 16 5 "), "{}", wrong[2]);
    }
}

/// Two walls two apart, clearance 2, share the room between them. With one
/// taken out, the other still blocks what is within its clearance, so the way
/// across leads below it, along x = 4 and not through its box.
#[test]
fn astray_by_cleared_marks() {
    let records = [
        board(2),
        lay(1, 4, 0, 4, 10),
        lay(2, 6, 10, 6, 2),
        ask(0, 9, 10, 9),
        takeout(1),
        ask(5, 9, 10, 9),
        ask(0, 9, 10, 9),
    ];
    let right = [
        "0",
        "0 10 0 4:0 4:10",
        "0 8 0 6:10 6:2",
        "12",
        "0",
        "18 1 2",
        "0 28 9 0:9 4:9 4:0 10:0 10:9",
    ];
    assert_eq!(answers_by(&records, Method::Unit, Fault::None), right);
    assert_eq!(answers_by(&records, Method::Wide, Fault::None), right);
    let wrong = answers_by(&records, Method::Unit, Fault::ClearedMarks);
    assert_eq!(wrong[..6], right[..6]);
    // Along x = 5, which lay in the first box and still lies in the second.
    assert_eq!(wrong[6], "0 28 9 0:9 5:9 5:0 10:0 10:9");
}

/// A heap of abutting keep-outs with a pocket: the rows inside the pocket are
/// no outermost sides, and without them the shortest wire is lost.
#[test]
fn astray_by_outer_sides() {
    let records = [
        board(1),
        keepout(1, 2, 0, 4, 9),
        keepout(2, 4, 0, 6, 5),
        keepout(3, 6, 0, 8, 9),
        ask(4, 6, 6, 6),
    ];
    assert_eq!(answer(&records), "0 2 0 4:6 6:6");
    let wrong = answers_by(&records, Method::Wide, Fault::OuterSides);
    assert_ne!(wrong[4], "0 2 0 4:6 6:6");
}
