//! Document 02's order 6: kinds 8 and 9, the fewest turns at the shortest length.
//! Expected answers are by hand.

mod common;

use bench::draw::Scene;
use bench::drawn::words::told;
use bench::fault::Fault;
use bench::route::Method;
use bench::tally::{Straight, Tally};
use bench::text;
use common::{answers, answers_by, ask, ask_straight, bounds, keepout, last_answer};
use common::{lay, lay_straight, record, takeout, undo};

/// The answer to the last record, the same by both searches.
fn answer(records: &[Vec<u8>]) -> String {
    let by = |method| answers_by(records, method, Fault::None).pop().expect("some record");
    let (unit, wide) = (by(Method::Unit), by(Method::Wide));
    assert_eq!(unit, wide, "the two searches differ");
    unit
}

/// 3 x 3 with a keep-out that a wire from (0,1) to (3,3) can climb or go past.
fn corner() -> Vec<Vec<u8>> {
    vec![bounds(3, 3, 1), keepout(1, 1, 0, 2, 2)]
}

fn on(board: &[Vec<u8>], more: Vec<u8>) -> Vec<Vec<u8>> {
    [board, &[more]].concat()
}

const CLIMBED: &str = "0 5 0 0:1 1:1 1:2 3:2 3:3";
const PASSED: &str = "0 5 0 0:1 0:3 3:3";

#[test]
fn fewer_turns_by_hand() {
    assert_eq!(answer(&on(&corner(), ask(0, 1, 3, 3))), CLIMBED);
    assert_eq!(answer(&on(&corner(), lay(7, 0, 1, 3, 3))), CLIMBED);
    assert_eq!(answer(&on(&corner(), ask_straight(0, 1, 3, 3))), PASSED);
    assert_eq!(answer(&on(&corner(), lay_straight(7, 0, 1, 3, 3))), PASSED);
}

/// Over one wall and under the next it is 9 steps, in five runs; along the board's edge
/// it would be three runs, and 11 steps.
#[test]
fn length_comes_before_turns() {
    let walls = [bounds(6, 9, 1), keepout(1, 1, 0, 2, 3), keepout(2, 3, 2, 5, 9)];
    let records = on(&walls, ask_straight(0, 2, 6, 3));
    assert_eq!(answer(&records), "0 9 1 0:2 0:3 3:3 3:2 6:2 6:3");
    let wrong = answers_by(&records, Method::Unit, Fault::TurnsFirst);
    assert_eq!(wrong[3], "0 11 2 0:2 0:0 6:0 6:3");
}

/// Document 01's Table P by kind 8. P3 and P5 lose a turn, the others stay.
#[test]
fn table_p() {
    let board = |c: u16| bounds(10, 10, c);
    let (block, wall) = (keepout(1, 3, 2, 6, 8), lay(7, 5, 0, 5, 10));
    let thin = keepout(1, 4, 0, 5, 10);
    let abutting = [board(1), keepout(1, 2, 2, 5, 8), keepout(2, 5, 2, 8, 8)];
    let by_8 = |board: &[Vec<u8>], [sx, sy, tx, ty]: [u16; 4]| {
        answer(&on(board, ask_straight(sx, sy, tx, ty)))
    };
    let (empty, blocked) = ([board(1)], [board(1), block]);
    let walled = [board(1), wall.clone()];
    for (number, board, pins, expected) in [
        (1, &empty[..], [0, 0, 10, 10], "0 20 0 0:0 10:0 10:10"),
        (2, &empty, [10, 10, 0, 0], "0 20 0 10:10 0:10 0:0"),
        (3, &blocked, [1, 5, 8, 5], "0 13 3 1:5 1:8 8:8 8:5"),
        (4, &blocked, [8, 5, 1, 5], "0 13 3 8:5 8:8 1:8 1:5"),
        (5, &[board(1), thin], [2, 5, 8, 5], "0 16 5 2:5 2:10 8:10 8:5"),
        (6, &walled, [2, 5, 8, 5], "12"),
        (7, &walled, [4, 0, 4, 10], "0 10 0 4:0 4:10"),
        (7, &[board(2), wall], [4, 0, 4, 10], "18 1 7"),
        (8, &blocked, [3, 2, 6, 8], "0 9 0 3:2 6:2 6:8"),
        (9, &blocked, [4, 5, 8, 5], "11 1 1"),
        (10, &blocked, [4, 5, 4, 5], "10"),
        (11, &abutting, [5, 0, 5, 10], "0 16 3 5:0 8:0 8:10 5:10"),
        (12, &empty, [11, 0, 0, 0], "9"),
    ] {
        assert_eq!(by_8(board, pins), expected, "P{number}");
    }
}

/// Steps that kind 4 climbs in two runs each: wall k stands at x = 2k, k + 1 high.
fn stairs(steps: u16) -> Vec<Vec<u8>> {
    let mut records = vec![bounds(2 * steps + 4, steps + 2, 1)];
    records.extend((1..=steps).map(|k| keepout(k, 2 * k, 0, 2 * k + 1, k + 1)));
    records
}

/// The pins at the foot and at the head, for a record of that kind.
fn up_the_stairs(steps: u16, kind: u8, id: u16) -> Vec<u8> {
    record(kind, id, [0, 1, 2 * steps + 4, steps + 2])
}

#[test]
fn code_13_counts_this_modes_runs() {
    // Two for each step, and two at the head.
    let eleven = answer(&on(&stairs(11), up_the_stairs(11, 4, 0)));
    assert!(eleven.starts_with("0 38 0 0:1 2:1 2:2 4:2 "), "{eleven}");
    assert_eq!(eleven.split(' ').count(), 3 + 25);
    for (kind, id, expected) in [
        (4, 0, "13"),
        (3, 99, "13"),
        (8, 0, "0 41 0 0:1 0:14 28:14"),
        (9, 99, "0 41 0 0:1 0:14 28:14"),
    ] {
        assert_eq!(answer(&on(&stairs(12), up_the_stairs(12, kind, id))), expected, "{kind}");
    }
}

/// A comb that every wire winds through in two runs a wall: 13 in both modes.
#[test]
fn code_13_stays_where_no_wire_has_fewer() {
    let walls = |count: u16| -> Vec<Vec<u8>> {
        let wall = |k: u16| if k % 2 == 1 { (0, 8) } else { (2, 10) };
        let laid = (1..=count).map(|k| lay_straight(k, 4 * k, wall(k).0, 4 * k, wall(k).1));
        [bounds(4 * count + 4, 10, 1)].into_iter().chain(laid).collect()
    };
    for (pins, code) in [([3, 0, 52, 1], "0 "), ([2, 0, 52, 1], "0 "), ([2, 0, 52, 2], "13")] {
        let told = answer(&on(&walls(12), record(8, 0, pins)));
        assert!(told.starts_with(code), "{pins:?}: {told}");
    }
    assert_eq!(answer(&on(&walls(13), record(9, 99, [0, 0, 56, 5]))), "13");
}

/// On a board with room for two blocks a wire of two runs still lies, which by kind 3
/// would have four.
#[test]
fn code_14_counts_the_wire_that_would_lie() {
    let mut records = vec![bounds(100, 100, 1), keepout(1, 1, 0, 2, 2)];
    records.extend((2..=44).map(|k| keepout(k, 2 * k, 90, 2 * k + 1, 91)));
    assert_eq!(answer(&on(&records, lay(99, 0, 1, 3, 3))), "14");
    assert_eq!(answer(&on(&records, lay_straight(99, 0, 1, 3, 3))), PASSED);
    records.push(keepout(45, 98, 98, 99, 99));
    assert_eq!(answer(&on(&records, lay_straight(99, 0, 1, 3, 3))), "14");
    assert_eq!(answer(&on(&records, ask_straight(0, 1, 3, 3))), PASSED);
}

/// A wire of kind 9 goes and comes back as any other. (0,2) lies on the way past the
/// keep-out, not on the way up it.
#[test]
fn it_is_taken_out_and_undone() {
    let (to_it, free) = (ask(2, 0, 0, 2), "0 4 0 2:0 2:2 0:2");
    let records = [
        corner(),
        vec![lay_straight(9, 0, 1, 3, 3), to_it.clone(), takeout(9), to_it.clone()],
        vec![undo(), to_it.clone(), undo(), to_it, undo(), undo()],
    ];
    let told = answers(&records.concat());
    assert_eq!(told[2..6], [PASSED, "18 2 9", "0", free]);
    assert_eq!(told[6..], ["0", "18 2 9", "0", free, "0", "15"]);
}

#[test]
fn thirty_two_are_kept() {
    let lays = (1..=33).map(|k| lay_straight(k, 0, 2 * k, 9, 2 * k));
    let records: Vec<Vec<u8>> = [bounds(99, 99, 1)].into_iter().chain(lays).collect();
    let told = answers(&[records, vec![undo(); 33], vec![takeout(2), takeout(1)]].concat());
    assert_eq!(told[34..], [vec!["0"; 32], vec!["15", "5", "0"]].concat());
}

#[test]
fn code_1_for_each_field_and_code_2_before_bounds() {
    let byte_1 = |kind, id| {
        let mut bytes = record(kind, id, [0, 0, 1, 1]);
        bytes[1] = 1;
        bytes
    };
    let unknown = [0, 7].into_iter().chain(10..=255).flat_map(|kind| {
        [record(kind, 0, [0, 0, 1, 1]), record(kind, 1, [0, 0, 1, 1]), record(kind, 0, [0; 4])]
    });
    let wrong = [record(8, 1, [0, 0, 1, 1]), record(8, 256, [0, 0, 1, 1])];
    let wrong = wrong.into_iter().chain([record(9, 0, [0, 0, 1, 1]), byte_1(8, 0), byte_1(9, 1)]);
    for bytes in unknown.chain(wrong) {
        assert_eq!(answers(&[bytes.clone(), bounds(9, 9, 1), bytes]), ["1", "0", "1"]);
    }
    for bytes in [ask_straight(0, 0, 1, 1), lay_straight(1, 0, 0, 0, 0)] {
        assert_eq!(answers(&[bytes.clone(), bounds(0, 9, 1), bytes]), ["2", "3", "2"]);
    }
}

#[test]
fn an_ask_is_no_change() {
    let told = answers(&[corner(), vec![ask_straight(0, 1, 3, 3), undo(), undo()]].concat());
    assert_eq!(told[2..], [PASSED, "0", "15"]);
}

/// Each planted fault is seen where it can be: on the corner, the stairs or the undo.
#[test]
fn planted_faults_by_hand() {
    let by = |fault, records: &[Vec<u8>]| answers_by(records, Method::Unit, fault);
    let last = |fault, records: &[Vec<u8>]| by(fault, records).pop().expect("some record");
    let asked = on(&corner(), ask_straight(0, 1, 3, 3));
    for (fault, told) in [
        (Fault::None, PASSED),
        // E as long as that leads nearer, then N, and on to the top.
        (Fault::GreedyStraight, "0 5 0 0:1 1:1 1:3 3:3"),
        (Fault::MostRuns, "0 5 0 0:1 1:1 1:2 2:2 2:3 3:3"),
        (Fault::AskedPlain, CLIMBED),
        (Fault::UnkeptStraight, PASSED),
    ] {
        assert_eq!(last(fault, &asked), told, "{fault:?}");
    }
    let climbing = on(&stairs(12), up_the_stairs(12, 8, 0));
    assert_eq!(last(Fault::RunsOfPlain, &climbing), "13");
    let empty = [bounds(9, 9, 1), ask_straight(0, 0, 9, 9)];
    assert_eq!(last(Fault::OtherOrder, &empty), "0 18 0 0:0 0:9 9:9");
    let laid = [corner(), vec![lay_straight(9, 0, 1, 3, 3), undo(), undo()]].concat();
    assert_eq!(by(Fault::UnkeptStraight, &laid)[2..], [PASSED, "0", "15"]);
    assert_eq!(by(Fault::None, &laid)[2..], [PASSED, "0", "0"]);
}

#[test]
fn it_is_drawn_as_an_ask_and_a_lay() {
    let picture = |record: Vec<u8>| {
        let file = [bounds(9, 9, 1), record].concat();
        let picture = Scene::of(file.as_slice()).expect("memory can be read").svg();
        picture.replace("askstraight ", "ask ").replace("laystraight ", "lay ")
    };
    assert_eq!(picture(ask_straight(0, 0, 9, 9)), picture(ask(0, 0, 9, 9)));
    assert_eq!(picture(lay_straight(7, 0, 0, 9, 9)), picture(lay(7, 0, 0, 9, 9)));
}

/// One who judges drawn wires is told of a refused kind 9, as of a lay, but not of a
/// refused kind 8, as that would have changed nothing.
#[test]
fn a_refused_one_is_told_as_a_lay() {
    let lines = b"bounds 9 9 1\naskstraight 1 1 1 1\nlaystraight 7 1 1 1 1\ndraw 0 0 9 0\n";
    let told = told(&text::read(lines).expect("a text"), b"1 0 0\nend\n").expect("lines");
    assert!(told.starts_with("line 3: laystraight 7 1 1 1 1: refused with 10"), "{told}");
}

#[test]
fn a_tally_counts_them() {
    let tally = |records: &[Vec<u8>]| {
        let Straight { asks, lays, unlike, past_limit } =
            Tally::of(records.concat().as_slice()).expect("memory can be read").straight;
        [asks, lays, unlike, past_limit]
    };
    let both = [ask(0, 1, 3, 3), ask_straight(0, 1, 3, 3), lay_straight(7, 0, 1, 3, 3)];
    assert_eq!(tally(&[&corner()[..], &both].concat()), [1, 1, 2, 0]);
    assert_eq!(tally(&on(&stairs(12), up_the_stairs(12, 9, 99))), [0, 1, 1, 1]);
    assert_eq!(tally(&[bounds(9, 9, 1), ask_straight(0, 0, 9, 9)]), [1, 0, 0, 0]);
    assert_eq!(tally(&[bounds(9, 9, 1), ask_straight(0, 0, 0, 0)]), [0; 4]);
    assert_eq!(last_answer(&[bounds(9, 9, 1), ask_straight(0, 0, 0, 0)]), "10");
}
