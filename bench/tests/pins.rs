//! Which pin is blocked, and by which item. Expected answers are worked by hand
//! from document 02's order 2 and document 01.

mod common;

use std::fs;

use bench::fault::Fault;
use bench::peer::bench_folder;
use bench::route::Method;
use bench::text::pack;
use common::{answers, answers_by, ask, bounds, keepout, last_answer, lay, record, sheet};
use common::{takeout, undo};

/// A board of 20 x 20 with clearance 3 and wire 9 along x = 5, from y = 2 to 10.
/// Its box has 2 < x < 8 and -1 < y < 13.
fn one_wire() -> Vec<Vec<u8>> {
    vec![bounds(20, 20, 3), lay(9, 5, 2, 5, 10)]
}

/// The same with wire 4 along x = 9 laid later. Its box has 6 < x < 12, so x = 7
/// is in both.
fn two_wires() -> Vec<Vec<u8>> {
    [one_wire(), vec![lay(4, 9, 2, 9, 10)]].concat()
}

/// The same with keep-out 50 between the wires, over both boxes.
fn covered() -> Vec<Vec<u8>> {
    [two_wires(), vec![keepout(50, 6, 4, 9, 8)]].concat()
}

/// Asks on a board, and sees that a lay is answered alike.
fn assert_told(board: &[Vec<u8>], pins: [u16; 4], told: &str) {
    for piece in [record(4, 0, pins), record(3, 99, pins)] {
        assert_eq!(last_answer(&[board, &[piece]].concat()), told, "{pins:?}");
    }
}

#[test]
fn the_boards_are_as_they_say() {
    let laid = ["0", "0 8 0 5:2 5:10", "0 8 0 9:2 9:10", "0"];
    assert_eq!(answers(&covered()), laid);
}

#[test]
fn the_sort_of_the_item_gives_the_code() {
    assert_told(&one_wire(), [4, 5, 15, 15], "18 1 9");
    assert_told(&[bounds(20, 20, 3), keepout(9, 3, 4, 6, 8)], [4, 5, 15, 15], "11 1 9");
}

#[test]
fn pin_2_alone() {
    assert_told(&one_wire(), [15, 15, 4, 5], "18 2 9");
    assert_told(&covered(), [15, 15, 7, 5], "11 2 50");
}

/// The smaller id was laid later.
#[test]
fn of_two_wires_the_smaller_id_is_told() {
    let board = two_wires();
    assert_told(&board, [7, 5, 15, 15], "18 1 4");
    assert_told(&board, [15, 15, 7, 5], "18 2 4");
    // Where only one of the boxes is, it is that wire's.
    assert_told(&board, [6, 5, 15, 15], "18 1 9");
    assert_told(&board, [8, 5, 15, 15], "18 1 4");
    // Laid the other way round it is the same.
    let board = [bounds(20, 20, 3), lay(4, 9, 2, 9, 10), lay(9, 5, 2, 5, 10)];
    assert_told(&board, [7, 5, 15, 15], "18 1 4");
}

#[test]
fn ids_are_compared_as_numbers() {
    let board = [bounds(20, 20, 3), lay(65_535, 5, 2, 5, 10), lay(256, 9, 2, 9, 10)];
    assert_told(&board, [4, 5, 15, 15], "18 1 65535");
    assert_told(&board, [7, 5, 15, 15], "18 1 256");
    let board = [bounds(20, 20, 3), lay(10, 5, 2, 5, 10), lay(9, 9, 2, 9, 10)];
    assert_told(&board, [7, 5, 15, 15], "18 1 9");
}

/// At one pin 11 goes before 18, whichever id is smaller.
#[test]
fn a_keep_out_over_a_box() {
    for id in [3, 6, 50] {
        let board = [two_wires(), vec![keepout(id, 6, 4, 9, 8)]].concat();
        assert_told(&board, [7, 5, 15, 15], &format!("11 1 {id}"));
        assert_told(&board, [15, 15, 8, 7], &format!("11 2 {id}"));
        // On its sides, which are free, only the wires are in the way.
        assert_told(&board, [7, 8, 15, 15], "18 1 4");
        assert_told(&board, [6, 5, 15, 15], "18 1 9");
    }
}

#[test]
fn pin_1_is_told_before_pin_2() {
    let board = covered();
    // With 18 before 11 too.
    assert_told(&board, [4, 5, 7, 5], "18 1 9");
    assert_told(&board, [7, 5, 4, 5], "11 1 50");
    assert_told(&board, [7, 3, 4, 5], "18 1 4");
    assert_told(&board, [4, 5, 7, 3], "18 1 9");
    let board = [covered(), vec![keepout(2, 12, 12, 18, 18)]].concat();
    assert_told(&board, [7, 5, 15, 15], "11 1 50");
    assert_told(&board, [15, 15, 7, 5], "11 1 2");
}

#[test]
fn exactly_the_clearance_away() {
    let board = one_wire();
    for (x, y, blocked) in [
        // To both sides of the wire, past its end, and aslant of that.
        (2, 6, false),
        (3, 6, true),
        (8, 6, false),
        (7, 6, true),
        (5, 13, false),
        (5, 12, true),
        (8, 12, false),
        (7, 13, false),
        (7, 12, true),
    ] {
        let answer = last_answer(&[board.clone(), vec![ask(x, y, 20, 20)]].concat());
        assert_eq!(answer == "18 1 9", blocked, "{x}:{y} got {answer}");
        assert_eq!(answer.starts_with("0 "), !blocked, "{x}:{y} got {answer}");
    }
}

/// A box reaches past the board's edge, so the edge is in it.
#[test]
fn on_the_boards_edge() {
    let board = [bounds(10, 10, 2), lay(8, 0, 0, 10, 0)];
    assert_told(&board, [5, 0, 5, 9], "18 1 8");
    assert_told(&board, [5, 9, 10, 1], "18 2 8");
    assert_told(&board, [5, 2, 5, 9], "0 7 0 5:2 5:9");
}

/// A keep-out one unit wide has no node inside, but a wire's box always has.
#[test]
fn a_thin_keep_out_blocks_no_pin() {
    let board = [bounds(10, 10, 1), keepout(1, 4, 0, 5, 10)];
    assert_told(&board, [4, 5, 4, 9], "0 4 0 4:5 4:9");
    let board = [bounds(10, 10, 1), lay(1, 4, 0, 4, 10)];
    assert_told(&board, [4, 5, 3, 9], "18 1 1");
}

#[test]
fn what_is_taken_out_is_told_no_more_until_it_is_back() {
    let asked = || ask(7, 5, 15, 15);
    let changes =
        [takeout(50), takeout(4), undo(), takeout(9), undo(), takeout(4), takeout(9), undo()];
    let told = ["18 1 4", "18 1 9", "18 1 4", "18 1 4", "18 1 4", "18 1 9", "", "18 1 9"];
    let mut records = [covered(), vec![asked()]].concat();
    assert_eq!(last_answer(&records), "11 1 50");
    for (change, told) in changes.into_iter().zip(told) {
        records.extend([change, asked()]);
        let answer = last_answer(&records);
        match told {
            "" => assert!(answer.starts_with("0 18 0 7:5 "), "{answer}"),
            _ => assert_eq!(answer, told),
        }
    }
    // Two more undos bring the other wire and the keep-out back.
    records.extend([undo(), undo(), asked()]);
    assert_eq!(last_answer(&records), "11 1 50");
}

/// Nothing follows any other code.
#[test]
fn other_refusals_tell_neither_pin_nor_item() {
    let board = covered();
    for (piece, told) in [
        (ask(7, 5, 21, 5), "9"),
        (ask(7, 5, 7, 5), "10"),
        (lay(4, 7, 5, 15, 15), "4"),
        (lay(0, 7, 5, 15, 15), "1"),
        (keepout(60, 4, 3, 7, 5), "7"),
        (takeout(7), "5"),
    ] {
        assert_eq!(last_answer(&[board.clone(), vec![piece]].concat()), told);
    }
    // P6's wall.
    let wall = [bounds(10, 10, 1), lay(7, 5, 0, 5, 10), ask(2, 5, 8, 5)];
    assert_eq!(last_answer(&wall), "12");
}

#[test]
fn wrong_readings_show() {
    for (fault, pins, right, wrong) in [
        (Fault::LargestId, [7, 3, 15, 15], "18 1 4", "18 1 9"),
        (Fault::AnySort, [7, 5, 15, 15], "11 1 50", "11 1 4"),
        (Fault::WiresFirst, [7, 5, 15, 15], "11 1 50", "18 1 4"),
        (Fault::CodeByCode, [4, 5, 7, 5], "18 1 9", "11 2 50"),
        (Fault::SecondPinFirst, [4, 5, 7, 3], "18 1 9", "18 2 4"),
        (Fault::PinsExchanged, [15, 15, 4, 5], "18 2 9", "18 1 9"),
    ] {
        let records = [covered(), vec![record(4, 0, pins)]].concat();
        for method in [Method::Unit, Method::Wide] {
            let last = |fault| answers_by(&records, method, fault).pop();
            assert_eq!(last(Fault::None).as_deref(), Some(right), "{fault:?}");
            assert_eq!(last(fault).as_deref(), Some(wrong), "{fault:?}");
        }
    }
}

/// The examples say after each record what must be printed, worked by hand.
#[test]
fn the_examples_are_printed_as_they_say() {
    for name in ["pins.txt", "relay.txt", "codes.txt"] {
        assert_printed_as_it_says(name);
    }
}

fn assert_printed_as_it_says(name: &str) {
    let path = bench_folder().with_file_name("examples").join(name);
    let example = fs::read_to_string(path).expect("the example");
    let records = example.lines().filter(|line| !line.is_empty() && !line.starts_with('#'));
    let said = |line: &str| {
        let comment = line.split("# ").nth(1).expect("a comment");
        comment.split(": ").next().expect("a line").to_string() + "\n"
    };
    let expected: String = records.map(said).collect::<String>() + "end\n";
    assert_eq!(sheet(&pack(example.as_bytes()).expect("it packs")), expected, "{name}");
}
