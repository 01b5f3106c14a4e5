//! Seams between keep-outs: document 02's order 3. Expected answers are worked by
//! hand from the documents. Drawn wires along seams are in `drawn_places`.

mod common;

use bench::fault::Fault;
use bench::route::Method;
use bench::tally::Tally;
use common::{answers_by, ask, bounds, keepout, lay, record, takeout, undo};

/// The answers to a file, the same by both searches.
fn answers(records: &[Vec<u8>]) -> Vec<String> {
    let by = |method| answers_by(records, method, Fault::None);
    let (unit, wide) = (by(Method::Unit), by(Method::Wide));
    assert_eq!(unit, wide, "the two searches differ");
    unit
}

fn last(records: &[Vec<u8>]) -> String {
    answers(records).pop().expect("some record")
}

/// Holds the answers to one more record on a board against what they must be.
fn assert_on(board: &[Vec<u8>], expected: &[(Vec<u8>, &str)]) {
    assert!(answers(board).iter().all(|answer| answer.starts_with('0')));
    for (record, answer) in expected {
        assert_eq!(last(&[board, std::slice::from_ref(record)].concat()), *answer, "{record:?}");
    }
}

/// The same with x and y swapped. Wires would turn in another order, so only the
/// codes are compared.
fn assert_codes(board: &[Vec<u8>], expected: &[(Vec<u8>, &str)]) {
    assert_on(board, expected);
    let swapped = |bytes: &Vec<u8>| {
        let mut bytes = bytes.clone();
        for at in if bytes[0] == 1 { &[4][..] } else { &[4, 8] } {
            bytes[*at..*at + 4].rotate_left(2);
        }
        bytes
    };
    let board: Vec<Vec<u8>> = board.iter().map(swapped).collect();
    for (record, answer) in expected {
        let records = [&board[..], &[swapped(record)]].concat();
        assert_eq!(last(&records), *answer, "{record:?} swapped");
    }
}

/// An L of two rectangles: upright (4,4)-(8,16) and lying (8,4)-(16,8). They share
/// x = 8 from y = 4 to 8.
fn relay() -> Vec<Vec<u8>> {
    vec![bounds(20, 20, 1), keepout(2, 4, 4, 8, 16), keepout(1, 8, 4, 16, 8)]
}

#[test]
fn no_wire_goes_through_a_relay() {
    assert_on(
        &relay(),
        &[
            // Round the lying part: 8 out, 8 up, 8 back. The other way is 28.
            (ask(8, 2, 8, 10), "0 24 8 8:2 16:2 16:10 8:10"),
            (ask(8, 10, 8, 2), "0 24 8 8:10 16:10 16:4 8:4 8:2"),
            // Between the ends of the seam, which are free: at (8,4) two cells are
            // covered, at the inner corner (8,8) three.
            (ask(8, 4, 8, 8), "0 20 8 8:4 16:4 16:8 8:8"),
            (ask(8, 8, 8, 10), "0 2 0 8:8 8:10"),
            (ask(8, 2, 8, 4), "0 2 0 8:2 8:4"),
            // On the seam.
            (ask(8, 5, 8, 10), "11 1 1"),
            (ask(8, 2, 8, 7), "11 2 1"),
            (lay(9, 8, 6, 8, 10), "11 1 1"),
        ],
    );
}

/// Two bricks, 25 and 20, on a longer one, 30. Their joint meets it at (10,8).
fn bricks() -> Vec<Vec<u8>> {
    vec![
        bounds(20, 20, 1),
        keepout(25, 10, 8, 16, 12),
        keepout(30, 4, 4, 16, 8),
        keepout(20, 4, 8, 10, 12),
    ]
}

#[test]
fn where_three_keep_outs_meet() {
    let far = |x: u16, y: u16| ask(x, y, 0, 0);
    assert_on(
        &bricks(),
        &[
            (far(10, 8), "11 1 20"),
            (far(7, 8), "11 1 20"),
            (far(12, 8), "11 1 25"),
            (far(10, 10), "11 1 20"),
            (far(6, 6), "11 1 30"),
            (ask(0, 0, 10, 8), "11 2 20"),
            // The ends of the seams.
            (far(4, 8), "0 12 0 4:8 0:8 0:0"),
            (ask(16, 8, 20, 8), "0 4 0 16:8 20:8"),
            (ask(10, 12, 10, 20), "0 8 0 10:12 10:20"),
        ],
    );
    let open = [bricks(), vec![takeout(20)]].concat();
    assert_on(
        &open,
        &[
            // Now three of the cells round (10,8) are covered.
            (ask(10, 8, 10, 12), "0 4 0 10:8 10:12"),
            (far(12, 8), "11 1 25"),
        ],
    );
    assert_eq!(last(&[open, vec![undo(), far(10, 8)]].concat()), "11 1 20");
}

/// Four keep-outs round (6,6), ids 7 and 5 below, 9 and 3 above.
fn four() -> Vec<Vec<u8>> {
    vec![
        bounds(12, 12, 1),
        keepout(7, 2, 2, 6, 6),
        keepout(5, 6, 2, 10, 6),
        keepout(9, 2, 6, 6, 10),
        keepout(3, 6, 6, 10, 10),
    ]
}

#[test]
fn where_four_keep_outs_meet() {
    let told = [
        (ask(6, 6, 0, 0), "11 1 3"),
        (ask(0, 0, 6, 6), "11 2 3"),
        (ask(6, 4, 0, 0), "11 1 5"),
        (ask(4, 6, 0, 0), "11 1 7"),
        (ask(8, 6, 0, 0), "11 1 3"),
        (ask(6, 8, 0, 0), "11 1 3"),
    ];
    assert_codes(&four()[..], &told[..2]);
    assert_on(&four(), &told);
}

#[test]
fn three_cells_close_no_node() {
    assert_on(
        &four()[..4],
        &[
            (ask(6, 6, 12, 12), "0 12 0 6:6 12:6 12:12"),
            // Two of the edges at (6,6) are closed.
            (ask(6, 6, 6, 2), "0 12 4 6:6 10:6 10:2 6:2"),
            (ask(6, 4, 0, 0), "11 1 5"),
        ],
    );
}

#[test]
fn a_common_corner_closes_nothing() {
    let board = [bounds(12, 12, 1), keepout(7, 2, 2, 6, 6), keepout(3, 6, 6, 10, 10)];
    assert_on(
        &board,
        &[
            (ask(6, 2, 6, 10), "0 8 0 6:2 6:10"),
            (ask(2, 6, 10, 6), "0 8 0 2:6 10:6"),
            (ask(6, 6, 6, 0), "0 6 0 6:6 6:0"),
        ],
    );
}

/// Cells off the board lie in no keep-out.
#[test]
fn the_boards_edge_is_never_closed() {
    let below = [bounds(10, 10, 1), keepout(2, 0, 0, 5, 4), keepout(1, 5, 0, 10, 4)];
    assert_on(
        &below,
        &[
            (ask(2, 0, 8, 0), "0 6 0 2:0 8:0"),
            (ask(5, 0, 5, 4), "0 14 5 5:0 10:0 10:4 5:4"),
            (ask(5, 2, 0, 0), "11 1 1"),
        ],
    );
    // All cells of the board are covered, and one can go round on its edge.
    let whole = [bounds(10, 10, 1), keepout(1, 0, 0, 5, 10), keepout(2, 5, 0, 10, 10)];
    assert_on(
        &whole,
        &[
            (ask(0, 0, 10, 10), "0 20 0 0:0 10:0 10:10"),
            (ask(5, 0, 5, 10), "0 20 5 5:0 10:0 10:10 5:10"),
            (ask(5, 10, 5, 9), "11 2 1"),
        ],
    );
}

/// Wire 9 along x = 7, clearance 2: its box begins at x = 5, where keep-out 1 ends.
#[test]
fn a_seam_beside_a_box_is_free() {
    let board = vec![bounds(10, 10, 2), keepout(1, 2, 2, 5, 8), lay(9, 7, 0, 7, 10)];
    assert_on(&board, &[(ask(5, 0, 5, 10), "0 10 0 5:0 5:10"), (ask(5, 5, 5, 6), "0 1 0 5:5 5:6")]);
    let boxes = [bounds(10, 10, 2), lay(8, 3, 0, 3, 10), lay(9, 7, 0, 7, 10)];
    assert_on(&boxes, &[(ask(5, 0, 5, 10), "0 10 0 5:0 5:10")]);
    // Keep-out 2 in the box closes its part of the seam, from y = 2 to 4.
    let both = [board, vec![keepout(2, 5, 2, 6, 4)]].concat();
    assert_on(
        &both,
        &[
            (ask(5, 0, 5, 10), "0 16 3 5:0 5:2 2:2 2:8 5:8 5:10"),
            (ask(5, 3, 5, 10), "11 1 1"),
            (ask(5, 4, 5, 10), "0 6 0 5:4 5:10"),
        ],
    );
}

/// Keep-outs 9 and 4 share x = 5 from y = 4 to 8 only.
#[test]
fn sides_that_overlap_in_part() {
    let board = [bounds(10, 12, 1), keepout(9, 2, 2, 5, 8), keepout(4, 5, 4, 8, 10)];
    assert_on(
        &board,
        &[
            (ask(5, 0, 5, 12), "0 18 3 5:0 8:0 8:12 5:12"),
            (ask(5, 0, 5, 4), "0 4 0 5:0 5:4"),
            (ask(5, 8, 5, 12), "0 4 0 5:8 5:12"),
            (ask(5, 4, 5, 8), "0 14 5 5:4 8:4 8:10 5:10 5:8"),
            (ask(5, 5, 0, 0), "11 1 4"),
            (ask(5, 7, 0, 0), "11 1 4"),
        ],
    );
}

/// Keep-out 1, and wire 2 along its right side from (5,3) to (5,6).
fn wire_beside() -> Vec<Vec<u8>> {
    vec![bounds(10, 10, 1), keepout(1, 2, 2, 5, 8), lay(2, 5, 3, 5, 6)]
}

#[test]
fn a_seam_is_not_closed_over_a_wire() {
    assert_eq!(answers(&wire_beside())[2], "0 3 0 5:3 5:6");
    assert_codes(
        &wire_beside(),
        &[
            // Over all of the wire, and over its last or first unit.
            (keepout(3, 5, 2, 8, 8), "8"),
            (keepout(3, 5, 0, 6, 10), "8"),
            (keepout(3, 5, 4, 6, 5), "8"),
            (keepout(3, 5, 5, 8, 8), "8"),
            (keepout(3, 5, 2, 8, 4), "8"),
            // The seam ends where the wire does.
            (keepout(3, 5, 6, 8, 8), "0"),
            (keepout(3, 5, 2, 8, 3), "0"),
            // No seam beside the wire.
            (keepout(3, 6, 2, 8, 8), "0"),
            (keepout(3, 5, 8, 8, 10), "0"),
        ],
    );
    // A wire up to the seam's end, and one over its end, along both bottom sides.
    let seam = keepout(3, 5, 2, 8, 8);
    for wire in [lay(2, 5, 0, 5, 2), lay(2, 0, 2, 10, 2)] {
        let board = [bounds(10, 10, 1), keepout(1, 2, 2, 5, 8), wire];
        assert_codes(&board, &[(seam.clone(), "0")]);
    }
}

#[test]
fn code_8_by_a_seam_in_its_place() {
    let taken = [wire_beside(), vec![keepout(3, 7, 2, 9, 4)]].concat();
    assert_codes(
        &taken,
        &[
            (keepout(2, 5, 2, 7, 8), "4"),
            (keepout(9, 5, 2, 11, 8), "6"),
            (keepout(9, 5, 2, 8, 8), "7"),
            (keepout(9, 5, 2, 7, 8), "8"),
        ],
    );
    // 46 blocks: keep-out 1, the wire's run and 44 more keep-outs.
    let mut full = vec![bounds(200, 20, 1), keepout(1, 2, 2, 5, 8), lay(2, 5, 3, 5, 6)];
    full.extend((3..=46).map(|id| keepout(id, 20 + 2 * id, 0, 21 + 2 * id, 1)));
    assert_codes(&full, &[(keepout(99, 5, 2, 8, 8), "8"), (keepout(99, 5, 6, 8, 8), "14")]);
}

/// P11's keep-outs: the way between them comes and goes with one of them.
#[test]
fn a_seam_opens_and_closes() {
    let through = || ask(5, 0, 5, 10);
    let records = [
        bounds(10, 10, 1),
        keepout(1, 2, 2, 5, 8),
        keepout(2, 5, 2, 8, 8),
        through(),
        takeout(2),
        through(),
        undo(),
        through(),
        takeout(2),
        lay(7, 5, 0, 5, 10),
        keepout(2, 5, 2, 8, 8),
        undo(),
        keepout(2, 5, 2, 8, 8),
        through(),
    ];
    let (round, straight) = ("0 16 3 5:0 8:0 8:10 5:10", "0 10 0 5:0 5:10");
    let told =
        ["0", "0", "0", round, "0", straight, "0", round, "0", straight, "8", "0", "0", round];
    assert_eq!(answers(&records), told);
}

/// A seam is no block: a row of 46 keep-outs has 45 seams and fits.
#[test]
fn seams_count_for_nothing() {
    let mut row = vec![bounds(60, 10, 1)];
    row.extend((1..=46).map(|id| keepout(id, id, 2, id + 1, 8)));
    assert_on(
        &row,
        &[
            (keepout(99, 50, 2, 51, 8), "14"),
            (ask(20, 0, 20, 10), "0 48 19 20:0 20:2 1:2 1:8 20:8 20:10"),
            (ask(20, 5, 0, 0), "11 1 19"),
        ],
    );
}

#[test]
fn seams_left_open_show() {
    for (board, piece, right, wrong) in [
        (relay(), ask(8, 2, 8, 10), "0 24 8 8:2 16:2 16:10 8:10", "0 8 0 8:2 8:10"),
        (relay(), ask(8, 5, 8, 8), "11 1 1", "0 3 0 8:5 8:8"),
        (four(), ask(6, 6, 6, 12), "11 1 3", "0 6 0 6:6 6:12"),
        (wire_beside(), keepout(3, 5, 2, 8, 8), "8", "0"),
    ] {
        let records = [board, vec![piece]].concat();
        assert_eq!(last(&records), right);
        for method in [Method::Unit, Method::Wide] {
            let open = answers_by(&records, method, Fault::OpenSeams).pop();
            assert_eq!(open.as_deref(), Some(wrong));
        }
    }
}

/// What a tally counts: asks and lays that are answered otherwise with open seams,
/// each on the board that it finds, and 8 where nothing else gives it.
#[test]
fn what_seams_change_is_counted() {
    let records = [
        bounds(10, 10, 1),
        ask(5, 0, 5, 10),
        keepout(1, 2, 2, 5, 8),
        keepout(2, 5, 2, 8, 8),
        // Changed: the way round, a pin on the seam, and the lay round.
        ask(5, 0, 5, 10),
        ask(5, 5, 5, 10),
        record(3, 9, [5, 0, 5, 10]),
        // Not changed: elsewhere, and a pin inside.
        ask(0, 0, 0, 10),
        ask(3, 3, 0, 10),
        takeout(2),
        // No seam is left.
        lay(7, 5, 2, 5, 8),
        // By the seam alone, and by the interior.
        keepout(2, 5, 2, 7, 8),
        keepout(2, 5, 0, 9, 1),
        takeout(1),
        keepout(2, 4, 2, 7, 8),
    ];
    let tally = Tally::of(records.concat().as_slice()).expect("memory can be read");
    assert_eq!((tally.changed_by_seams, tally.closing_seams), (3, 1), "{tally}");
    assert_eq!(tally.code(8), 3, "{tally}");
    let told = tally.to_string();
    assert!(told.contains("\ncode 8: 3, by a seam alone 1\n"), "{told}");
    assert!(told.contains("\nanswers that seams change: 3 (20.0 %), to asks 2\n"), "{told}");
}
