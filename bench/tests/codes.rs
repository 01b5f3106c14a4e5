//! The codes: each one, their order, and the limits. Expected codes are read
//! off document 01's table by hand. What 11 and 18 tell is in `pins`.

mod common;

use common::{answers, ask, bounds, keepout, last_answer, lay, record, takeout, undo};

/// The codes of a file's records.
fn codes(records: &[Vec<u8>]) -> Vec<u8> {
    let code = |answer: &String| answer.split(' ').next().unwrap().parse().unwrap();
    answers(records).iter().map(code).collect()
}

fn last_code(records: &[Vec<u8>]) -> u8 {
    codes(records).pop().expect("some record")
}

/// On a board of 10 x 10 with keep-out 1 at (3,2)-(6,8) and wire 2 from (0,0)
/// to (10,0): the code of one more record.
fn code_on_board(more: Vec<u8>) -> u8 {
    let records = [bounds(10, 10, 1), keepout(1, 3, 2, 6, 8), lay(2, 0, 0, 10, 0), more];
    let codes = codes(&records);
    assert_eq!(codes[..3], [0, 0, 0]);
    codes[3]
}

fn with_byte_1(mut record: Vec<u8>) -> Vec<u8> {
    record[1] = 1;
    record
}

#[test]
fn code_1_for_each_field() {
    let wrong = [
        record(0, 0, [0; 4]),
        record(7, 0, [0; 4]),
        record(255, 0, [0; 4]),
        record(1, 1, [10, 10, 1, 0]),
        record(1, 0, [10, 10, 1, 1]),
        record(1, 0, [0, 10, 1, 1]),
        record(1, 1, [10, 10, 201, 0]),
        record(2, 0, [1, 1, 2, 2]),
        record(3, 0, [1, 1, 2, 2]),
        record(4, 1, [1, 1, 2, 2]),
        record(4, 256, [1, 1, 2, 2]),
        record(5, 0, [0; 4]),
        record(5, 1, [1, 0, 0, 0]),
        record(5, 1, [0, 1, 0, 0]),
        record(5, 1, [0, 0, 256, 0]),
        record(5, 1, [0, 0, 0, 1]),
        record(6, 1, [0; 4]),
        record(6, 0, [1, 0, 0, 0]),
        record(6, 0, [0, 1, 0, 0]),
        record(6, 0, [0, 0, 1, 0]),
        record(6, 0, [0, 0, 0, 256]),
        with_byte_1(bounds(10, 10, 1)),
        with_byte_1(keepout(9, 7, 7, 8, 8)),
        with_byte_1(lay(9, 7, 7, 8, 8)),
        with_byte_1(ask(7, 7, 8, 8)),
        with_byte_1(takeout(1)),
        with_byte_1(undo()),
    ];
    for record in wrong {
        assert_eq!(code_on_board(record.clone()), 1, "{record:?}");
        // Code 1 comes before code 2 (and, in the list, before 3, 4 and 5).
        assert_eq!(last_code(std::slice::from_ref(&record)), 1, "{record:?} before bounds");
    }
}

#[test]
fn code_2_before_any_bounds() {
    let records = [
        keepout(1, 0, 0, 1, 1),
        keepout(1, 1, 1, 1, 1),
        lay(1, 0, 0, 1, 1),
        lay(1, 0, 0, 0, 0),
        ask(0, 0, 1, 1),
        takeout(1),
        undo(),
    ];
    for record in records {
        assert_eq!(last_code(std::slice::from_ref(&record)), 2, "{record:?}");
        // Refused bounds are no bounds.
        assert_eq!(codes(&[bounds(0, 10, 1), record.clone()]), [3, 2]);
        assert_eq!(codes(&[record, bounds(10, 10, 1)]), [2, 0]);
    }
}

#[test]
fn code_3_at_the_ranges_ends() {
    for (w, h, clearance, code) in [
        (1, 1, 1, 0),
        (30_000, 30_000, 200, 0),
        (0, 10, 1, 3),
        (10, 0, 1, 3),
        (10, 10, 0, 3),
        (30_001, 10, 1, 3),
        (10, 30_001, 1, 3),
        (10, 10, 201, 3),
        (65_535, 65_535, 65_535, 3),
    ] {
        assert_eq!(last_code(&[bounds(w, h, clearance)]), code, "{w} {h} {clearance}");
    }
}

#[test]
fn refused_bounds_leave_the_board() {
    let records = [bounds(10, 10, 1), keepout(1, 3, 2, 6, 8), bounds(0, 1, 1), takeout(1), undo()];
    assert_eq!(codes(&records), [0, 0, 3, 0, 0]);
}

#[test]
fn codes_of_a_keep_out() {
    for (record, code) in [
        (keepout(1, 7, 7, 8, 8), 4),
        (keepout(2, 7, 7, 8, 8), 4),
        (keepout(3, 8, 7, 8, 8), 6),
        (keepout(3, 7, 8, 8, 8), 6),
        (keepout(3, 8, 7, 7, 8), 6),
        (keepout(3, 7, 7, 11, 8), 6),
        (keepout(3, 7, 7, 8, 11), 6),
        (keepout(3, 0, 0, 65_535, 1), 6),
        (keepout(3, 5, 7, 7, 9), 7),
        (keepout(3, 4, 3, 5, 4), 7),
        (keepout(3, 2, 1, 7, 9), 7),
        // Touching at a side or a corner is allowed.
        (keepout(3, 6, 2, 8, 8), 0),
        (keepout(3, 6, 8, 8, 10), 0),
        (keepout(3, 0, 8, 10, 10), 0),
        // The wire runs along y = 0, on the keep-out's side, not in it. The
        // wire's box reaches up to y = 1; that is no ground for a refusal.
        (keepout(3, 0, 0, 10, 1), 0),
    ] {
        assert_eq!(code_on_board(record.clone()), code, "{record:?}");
    }
}

#[test]
fn code_8_for_a_wire_inside() {
    let laid = [bounds(10, 10, 3), lay(2, 2, 5, 8, 5)];
    for (keepout, code) in [
        (keepout(3, 4, 4, 6, 6), 8),
        (keepout(3, 0, 4, 3, 6), 8),
        (keepout(3, 7, 0, 10, 10), 8),
        // Beyond the ends, above and below: touching only.
        (keepout(3, 0, 4, 2, 6), 0),
        (keepout(3, 8, 4, 10, 6), 0),
        (keepout(3, 0, 5, 10, 6), 0),
        (keepout(3, 0, 4, 10, 5), 0),
    ] {
        let records = [&laid[..], std::slice::from_ref(&keepout)].concat();
        assert_eq!(last_code(&records), code, "{keepout:?}");
    }
}

#[test]
fn codes_of_a_lay_and_an_ask() {
    for (pins, code) in [
        ([11, 0, 5, 5], 9),
        ([0, 11, 5, 5], 9),
        ([1, 1, 11, 10], 9),
        ([1, 1, 10, 11], 9),
        ([1, 9, 1, 9], 10),
        ([4, 5, 1, 9], 11),
        ([1, 9, 4, 5], 11),
        ([5, 0, 1, 9], 18),
        ([1, 9, 5, 0], 18),
    ] {
        for (kind, id) in [(3, 9), (4, 0), (8, 0), (9, 9)] {
            assert_eq!(code_on_board(record(kind, id, pins)), code, "kind {kind}, {pins:?}");
        }
    }
}

/// A full board: wire 1 parts it at x = 50, and 45 keep-outs, ids 2 to 46, stand
/// on its lower edge on both sides. They have one square each; only the last has
/// four and so a node inside, (103,1).
fn full_board() -> Vec<Vec<u8>> {
    let mut records = vec![bounds(200, 20, 1), lay(1, 50, 0, 50, 20)];
    let x = |id: u16| if id <= 24 { 2 * id - 2 } else { 2 * id + 10 };
    records.extend((2..=45).map(|id| keepout(id, x(id), 0, x(id) + 1, 1)));
    records.push(keepout(46, 102, 0, 104, 2));
    records
}

/// For each kind, a record to which two codes apply gets the one that document
/// 01 names first. (The full board adds 14 to whatever else is wrong.)
#[test]
fn the_earlier_code_is_given() {
    let full = full_board();
    assert_eq!(codes(&full), vec![0; 47]);
    for (record, code, later) in [
        // Kind 2: 4 6 7 8 14.
        (keepout(1, 90, 9, 90, 9), 4, 6),
        (keepout(1, 2, 0, 3, 1), 4, 7),
        (keepout(1, 49, 5, 51, 6), 4, 8),
        (keepout(1, 90, 9, 91, 10), 4, 14),
        (keepout(99, 2, 0, 201, 1), 6, 7),
        (keepout(99, 49, 5, 201, 6), 6, 8),
        (keepout(99, 90, 9, 201, 10), 6, 14),
        (keepout(99, 2, 0, 51, 9), 7, 8),
        (keepout(99, 2, 0, 3, 1), 7, 14),
        (keepout(99, 49, 5, 51, 6), 8, 14),
        (keepout(99, 90, 9, 91, 10), 14, 14),
        // Kind 3: 4 9 10 11 12 13 14; 13 before 14 is tested below. Code 18 has
        // the place of 11.
        (lay(1, 201, 9, 90, 9), 4, 9),
        (lay(1, 90, 9, 90, 9), 4, 10),
        (lay(1, 103, 1, 90, 9), 4, 11),
        (lay(1, 50, 9, 90, 9), 4, 18),
        (lay(1, 10, 9, 90, 9), 4, 12),
        (lay(1, 90, 9, 91, 9), 4, 14),
        (lay(99, 201, 9, 201, 9), 9, 10),
        (lay(99, 103, 1, 201, 9), 9, 11),
        (lay(99, 50, 9, 201, 9), 9, 18),
        (lay(99, 90, 9, 201, 9), 9, 14),
        (lay(99, 103, 1, 103, 1), 10, 11),
        (lay(99, 50, 9, 50, 9), 10, 18),
        (lay(99, 90, 9, 90, 9), 10, 14),
        (lay(99, 10, 9, 103, 1), 11, 12),
        (lay(99, 90, 9, 103, 1), 11, 14),
        (lay(99, 10, 9, 50, 9), 18, 12),
        (lay(99, 90, 9, 50, 9), 18, 14),
        (lay(99, 10, 9, 90, 9), 12, 14),
        (lay(99, 90, 9, 91, 9), 14, 14),
        // Kind 4: 9 10 11 12 13.
        (ask(201, 9, 201, 9), 9, 10),
        (ask(103, 1, 201, 9), 9, 11),
        (ask(50, 9, 201, 9), 9, 18),
        (ask(103, 1, 103, 1), 10, 11),
        (ask(50, 9, 50, 9), 10, 18),
        (ask(10, 9, 103, 1), 11, 12),
        (ask(10, 9, 50, 9), 18, 12),
        (ask(10, 9, 90, 9), 12, 12),
    ] {
        for record in in_both_modes(record) {
            let answer = last_code(&[full.clone(), vec![record.clone()]].concat());
            assert_eq!(answer, code, "{record:?}: {code} before {later}");
        }
    }
}

/// A lay or ask as it is, and as kind 9 or 8; any other record alone.
fn in_both_modes(record: Vec<u8>) -> Vec<Vec<u8>> {
    let mut both = vec![record; 2];
    match both[0][0] {
        3 => both[1][0] = 9,
        4 => both[1][0] = 8,
        _ => both.truncate(1),
    }
    both
}

#[test]
fn code_18_comes_before_code_12() {
    // P6's wall parts the board; a pin in the wall's box is told first.
    let base = [bounds(10, 10, 1), lay(1, 5, 0, 5, 10)];
    for (pins, code) in [([2, 5, 8, 5], 12), ([5, 3, 8, 5], 18), ([2, 5, 5, 10], 18)] {
        assert_eq!(last_code(&[&base[..], &[record(3, 9, pins)]].concat()), code);
        assert_eq!(last_code(&[&base[..], &[record(4, 0, pins)]].concat()), code);
    }
}

/// A node that lies in no interior although every edge at it is blocked: the
/// answer is "no legal wire", not "a pin on a blocked node". West of (5,5) is the
/// keep-out, all else round it are boxes, and a seam beside a box is free.
#[test]
fn a_node_between_blocks_is_not_blocked() {
    let base = [
        bounds(10, 10, 2),
        lay(1, 0, 3, 10, 3),
        lay(2, 0, 7, 10, 7),
        keepout(3, 2, 4, 5, 6),
        lay(4, 7, 5, 8, 5),
    ];
    for pins in [ask(5, 5, 1, 5), ask(1, 5, 5, 5)] {
        assert_eq!(codes(&[&base[..], &[pins]].concat()), [0, 0, 0, 0, 0, 12]);
    }
    // Along y = 5, beside the keep-out, the room between the boxes is open.
    assert_eq!(last_answer(&[&base[..], &[ask(0, 5, 2, 5)]].concat()), "0 2 0 0:5 2:5");
}

#[test]
fn codes_of_take_out_and_undo() {
    assert_eq!(codes(&[bounds(9, 9, 1), takeout(1), undo()]), [0, 5, 15]);
    let records =
        [bounds(9, 9, 1), keepout(1, 1, 1, 2, 2), takeout(1), takeout(1), undo(), undo(), undo()];
    assert_eq!(codes(&records), [0, 0, 0, 5, 0, 0, 15]);
}

/// A comb of one-run wires on a board: walls at x = 4, 8, ..., clearance 1,
/// from below up to y = 8 and from above down to y = 2 in turn. The board ends
/// four units after the last wall.
fn comb(walls: u16) -> Vec<Vec<u8>> {
    let mut records = vec![bounds(4 * walls + 4, 10, 1)];
    for wall in 1..=walls {
        let (y0, y1) = if wall % 2 == 1 { (0, 8) } else { (2, 10) };
        records.push(lay(wall, 4 * wall, y0, 4 * wall, y1));
    }
    records
}

/// The way through twelve walls, by hand: up before the first wall, over it
/// and on to the second, down, under it, ... and out below the last: 24 runs.
fn through_twelve() -> String {
    let mut corners = String::from("3:0 3:9");
    for wall in 1..12 {
        let (over, next) = if wall % 2 == 1 { (9, 1) } else { (1, 9) };
        let x = 4 * wall + 3;
        corners += &format!(" {x}:{over} {x}:{next}");
    }
    // Up 9, then 11 times 8 up or down, and 49 along; 49 + 1 at the least.
    format!("0 {} {} {corners} 52:1", 9 + 11 * 8 + 49, (9 + 11 * 8 + 49 - 50) / 2)
}

#[test]
fn a_wire_of_24_runs_is_answered_and_one_of_25_refused() {
    let on_comb = |more: &[Vec<u8>]| [&comb(12), more].concat();
    assert_eq!(last_answer(&on_comb(&[ask(3, 0, 52, 1)])), through_twelve());
    assert_eq!(last_answer(&on_comb(&[lay(99, 3, 0, 52, 1)])), through_twelve());
    // One run more before the first wall, or after the last.
    for pins in [[2, 0, 52, 1], [3, 0, 52, 2]] {
        assert_eq!(last_code(&on_comb(&[record(3, 99, pins)])), 13);
        assert_eq!(last_code(&on_comb(&[record(4, 0, pins)])), 13);
    }
    // The wire of 24 runs stands, and goes again.
    let more = [lay(99, 3, 0, 52, 1), ask(3, 5, 0, 0), takeout(99), ask(3, 5, 0, 0)];
    assert_eq!(codes(&on_comb(&more))[13..], [0, 18, 0, 0]);
}

#[test]
fn code_13_comes_before_14() {
    // 46 walls fill the board. From one end to the other is far over 24 runs.
    let full = comb(46);
    let end = 4 * 46 + 4;
    let more = |record: Vec<u8>| last_code(&[full.clone(), vec![record]].concat());
    assert_eq!(codes(&full), vec![0; 47]);
    assert_eq!(more(lay(99, 0, 0, end, 0)), 13);
    assert_eq!(more(ask(0, 0, end, 0)), 13);
    assert_eq!(more(lay(99, 0, 0, 1, 0)), 14);
    assert_eq!(more(ask(0, 0, 1, 0)), 0);
    assert_eq!(more(keepout(99, 0, 0, 1, 1)), 14);
    assert_eq!(more(keepout(99, 3, 0, 5, 1)), 8);
    assert_eq!(more(lay(1, 0, 0, 1, 0)), 4);
}

#[test]
fn forty_six_blocks_and_not_one_more() {
    let mut records = vec![bounds(100, 100, 1)];
    records.extend((1..=46).map(|k| keepout(k, 2 * k, 0, 2 * k + 1, 1)));
    assert_eq!(codes(&records), vec![0; 47]);
    let after = |more: &[Vec<u8>]| last_code(&[&records, more].concat());
    assert_eq!(after(&[keepout(99, 99, 99, 100, 100)]), 14);
    assert_eq!(after(&[keepout(99, 2, 0, 3, 1)]), 7, "7 before 14");
    assert_eq!(after(&[lay(99, 0, 50, 9, 50)]), 14);
    // A block less leaves room for a keep-out or one run, two for two runs.
    let one_less = takeout(1);
    assert_eq!(after(&[one_less.clone(), keepout(99, 99, 99, 100, 100)]), 0);
    assert_eq!(after(&[one_less.clone(), lay(99, 0, 50, 9, 50)]), 0);
    assert_eq!(after(&[one_less.clone(), lay(99, 0, 50, 9, 51)]), 14);
    assert_eq!(after(&[one_less, takeout(2), lay(99, 0, 50, 9, 51)]), 0);
}

#[test]
fn thirty_two_changes_are_kept() {
    // 33 changes: 32 undos are obeyed, the first change stays for good.
    let changes = |count: u16| -> Vec<Vec<u8>> {
        (1..=count).map(|k| keepout(k, 2 * k, 0, 2 * k + 1, 1)).collect()
    };
    let undos = |count: usize| vec![undo(); count];
    let with = |parts: &[Vec<Vec<u8>>]| {
        codes(&[&[bounds(100, 100, 1)], parts.concat().as_slice()].concat())
    };
    assert_eq!(with(&[changes(32), undos(33)])[33..], [vec![0; 32], vec![15]].concat());
    assert_eq!(with(&[changes(33), undos(33)])[34..], [vec![0; 32], vec![15]].concat());
    // After that only item 1 stands.
    assert_eq!(with(&[changes(33), undos(33), vec![takeout(2), takeout(1)]])[67..], [5, 0]);
    // An undo makes room for a new change but brings no dropped one back.
    let again = with(&[changes(33), undos(1), vec![takeout(32)], undos(33)]);
    assert_eq!(again[35..], [vec![0], vec![0; 32], vec![15]].concat());
}

#[test]
fn undo_brings_back_what_was_taken_out() {
    let records = [
        bounds(10, 10, 1),
        lay(7, 5, 0, 5, 10),
        takeout(7),
        keepout(7, 0, 0, 10, 10),
        undo(),
        undo(),
        ask(2, 5, 8, 5),
        undo(),
        ask(2, 5, 8, 5),
        undo(),
    ];
    assert_eq!(codes(&records), [0, 0, 0, 0, 0, 0, 12, 0, 0, 15]);
}

#[test]
fn bounds_clear_items_and_kept_changes() {
    let records = [
        bounds(10, 10, 1),
        keepout(1, 3, 2, 6, 8),
        bounds(10, 10, 1),
        undo(),
        takeout(1),
        ask(1, 5, 8, 5),
        keepout(1, 3, 2, 6, 8),
    ];
    assert_eq!(codes(&records), [0, 0, 0, 15, 5, 0, 0]);
}

#[test]
fn asks_and_refusals_are_no_changes() {
    let records = [
        bounds(10, 10, 1),
        keepout(1, 3, 2, 6, 8),
        ask(0, 0, 1, 1),
        keepout(1, 0, 0, 1, 1),
        lay(2, 4, 5, 0, 0),
        takeout(9),
        record(9, 0, [0; 4]),
        undo(),
        undo(),
    ];
    assert_eq!(codes(&records), [0, 0, 0, 4, 11, 5, 1, 0, 15]);
}
