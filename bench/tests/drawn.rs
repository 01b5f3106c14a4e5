//! Drawn wires: each code, their order, counts and shapes. Expected verdicts are
//! worked by hand from document 02's order 1 and document 01.

mod common;

use common::drawn::{fed, sheet, verdict, verdicts, wire};
use common::{ask, bounds, keepout, lay, record, takeout, undo};

/// Document 01's worked board: 10 x 10, clearance 2, a keep-out (3,2)-(6,8) and
/// wire 7 round it, 1:5 3:5 3:8 8:8 8:5. The boxes of its runs, as open ones:
/// (-1,3)-(5,7), (1,3)-(5,10), (1,6)-(10,10) and (6,3)-(10,10).
fn worked() -> Vec<Vec<u8>> {
    vec![bounds(10, 10, 2), keepout(1, 3, 2, 6, 8), lay(7, 1, 5, 8, 5)]
}

#[test]
fn each_code_on_the_worked_board() {
    for (wire, said) in [
        (&[0, 0, 10, 0, 10, 10][..], "0 0"),
        // 2 up and 2 down more than needed.
        (&[0, 0, 0, 2, 4, 2, 4, 0, 10, 0, 10, 10], "0 4"),
        (&[0, 1, 10, 1, 10, 11], "9 2"),
        (&[0, 0, 5, 0, 5, 1, 0, 1, 0, 0], "10"),
        (&[0, 0, 0, 1, 4, 1, 4, 3], "20 3"),
        (&[0, 0, 1], "22"),
        (&[0, 0, 4, 0, 8, 0, 8, 2], "23 2"),
        (&[0, 0, 0, 4], "24 1"),
    ] {
        assert_eq!(verdict(&worked(), wire), said, "{wire:?}");
    }
    assert_eq!(verdict(&[], &[0, 0, 10, 0]), "2");
}

/// Code 2 comes first, whatever the numbers; refused bounds are no bounds.
#[test]
fn nothing_is_judged_before_bounds() {
    for wire in [&[][..], &[1], &[1, 1, 1, 1], &[1, 1, 2, 2], &[1, 1, 5, 1], &[0; 255]] {
        assert_eq!(verdict(&[], wire), "2", "{wire:?}");
        assert_eq!(verdict(&[bounds(0, 10, 1), keepout(1, 1, 1, 2, 2)], wire), "2", "{wire:?}");
    }
}

#[test]
fn two_to_twenty_five_corners() {
    let board = [bounds(60, 60, 1)];
    // Stairs from (0,0), a unit east and a unit north in turn.
    let stairs =
        |corners: u16| -> Vec<u16> { (0..corners).flat_map(|k| [k.div_ceil(2), k / 2]).collect() };
    for corners in 2..=25 {
        assert_eq!(verdict(&board, &stairs(corners)), "0 0", "{corners} corners");
    }
    for corners in [0, 1, 26, 27, 60, 127] {
        assert_eq!(verdict(&board, &stairs(corners)), "22", "{corners} corners");
    }
    for numbers in (1..=255).step_by(2) {
        assert_eq!(verdict(&board, &stairs(128)[..numbers]), "22", "{numbers} numbers");
    }
}

/// 22 before 10, 10 before 23, and 23 of any run before the place of any.
#[test]
fn the_earlier_code_is_given() {
    for (wire, said) in [
        // One corner is at one node with itself, and 26 closed corners too.
        (&[4, 4][..], "22"),
        (&[4; 52], "22"),
        // Ends at one node: with empty, slanted, unturned runs, off the board,
        // in the keep-out and beside the wire.
        (&[4, 4, 4, 4], "10"),
        (&[4, 4, 5, 5, 4, 4], "10"),
        (&[0, 0, 9, 0, 0, 0], "10"),
        (&[99, 99, 99, 0, 99, 99], "10"),
        (&[4, 5, 9, 5, 9, 9, 4, 9, 4, 5], "10"),
        // The third run is slanted; the first is off the board, in the keep-out
        // or beside the wire.
        (&[0, 99, 0, 0, 5, 0, 6, 1], "23 3"),
        (&[4, 3, 4, 0, 5, 0, 6, 1], "23 3"),
        (&[0, 4, 0, 0, 5, 0, 6, 1], "23 3"),
        // Runs in order: the first bad one is named, whatever its code.
        (&[0, 0, 0, 4, 4, 4, 4, 99], "24 1"),
        (&[4, 0, 4, 3, 0, 3, 0, 4], "20 1"),
        (&[0, 0, 99, 0, 99, 5, 4, 5], "9 1"),
        (&[0, 0, 1, 0, 1, 4, 4, 4], "24 2"),
        // In one run 9 before 20 and 24, and 20 before 24.
        (&[4, 0, 4, 99], "9 1"),
        (&[0, 0, 0, 99], "9 1"),
        (&[4, 0, 4, 9], "20 1"),
    ] {
        assert_eq!(verdict(&worked(), wire), said, "{wire:?}");
    }
}

#[test]
fn shapes() {
    let board = [bounds(20, 20, 1)];
    for (wire, said) in [
        (&[0, 0, 0, 5][..], "0 0"),
        // Slanted, the first run or a later one.
        (&[0, 0, 1, 1], "23 1"),
        (&[0, 0, 1, 0, 2, 1], "23 2"),
        (&[0, 0, 1, 0, 1, 1, 0, 0, 0, 9], "23 3"),
        // Empty, at the beginning, in the middle, at the end.
        (&[0, 0, 0, 0, 1, 0], "23 1"),
        (&[0, 0, 1, 0, 1, 0, 1, 1], "23 2"),
        (&[0, 0, 1, 0, 1, 1, 1, 1], "23 3"),
        // Straight on, straight back, and back past the start.
        (&[0, 0, 3, 0, 5, 0], "23 2"),
        (&[0, 0, 0, 5, 0, 3], "23 2"),
        (&[3, 0, 5, 0, 0, 0], "23 2"),
        (&[0, 0, 1, 0, 1, 3, 1, 2, 5, 2], "23 3"),
        // The first of several.
        (&[0, 0, 0, 0, 1, 1, 2, 2], "23 1"),
        (&[0, 0, 1, 0, 2, 0, 2, 0, 3, 1], "23 2"),
        // The largest numbers differ by a slant, too.
        (&[65_535, 0, 0, 65_535], "23 1"),
    ] {
        assert_eq!(verdict(&board, wire), said, "{wire:?}");
    }
}

/// Nothing is laid, and neither ids nor the number of blocks matter.
#[test]
fn a_drawn_wire_changes_nothing() {
    let wire: &[u16] = &[0, 50, 99, 50];
    assert_eq!(verdicts(&[bounds(100, 100, 5)], &[wire, wire]), ["0 0", "0 0"]);
    let mut full = vec![bounds(100, 100, 1)];
    full.extend((1..=46).map(|k| keepout(k, 2 * k, 0, 2 * k + 1, 1)));
    assert_eq!(verdict(&full, wire), "0 0");
    assert_eq!(verdict(&full, &[2, 0, 2, 1, 4, 1, 4, 0]), "0 2");
}

/// Wires are judged on the board as it stands between the records.
#[test]
fn the_board_changes_under_a_wire() {
    let wire = wire(&[0, 5, 10, 5]);
    let pieces = [
        wire.clone(),
        fed(bounds(10, 10, 1)),
        wire.clone(),
        fed(keepout(3, 4, 4, 6, 6)),
        wire.clone(),
        fed(takeout(3)),
        fed(lay(3, 5, 0, 5, 10)),
        wire.clone(),
        fed(undo()),
        wire.clone(),
        fed(undo()),
        wire.clone(),
        // Refused records and asks leave it as it is.
        fed(keepout(3, 0, 0, 1, 1)),
        fed(ask(0, 0, 9, 9)),
        fed(record(9, 0, [0; 4])),
        wire.clone(),
        fed(bounds(9, 10, 1)),
        wire,
    ];
    let said = "1 2\n2 0 0\n3 20 1\n4 24 1\n5 0 0\n6 20 1\n7 20 1\n8 9 1\nend\n";
    assert_eq!(sheet(&pieces.concat()), said);
}
