//! Where a drawn wire may go, and its excess. Expected verdicts are worked by
//! hand from document 02's order 1 and document 01.

mod common;

use common::drawn::verdict;
use common::{answers, ask, bounds, keepout, lay};

#[test]
fn the_boards_edge() {
    let board = [bounds(7, 5, 1)];
    for (wire, said) in [
        // All along it: 7 + 5 + 7 + 4, to a node one unit away.
        (&[0, 0, 7, 0, 7, 5, 0, 5, 0, 1][..], "0 22"),
        (&[0, 0, 8, 0], "9 1"),
        (&[0, 0, 0, 6], "9 1"),
        (&[8, 0, 0, 0], "9 1"),
        (&[0, 6, 0, 0], "9 1"),
        // A corner off the board belongs to two runs, of which the first is bad.
        (&[0, 0, 1, 0, 1, 6, 0, 6, 0, 1], "9 2"),
        (&[0, 0, 1, 0, 1, 1, 65_535, 1], "9 3"),
        // Both axes: the board isn't square.
        (&[6, 0, 6, 5], "0 0"),
        (&[0, 6, 5, 6], "9 1"),
    ] {
        assert_eq!(verdict(&board, wire), said, "{wire:?}");
    }
}

#[test]
fn keep_outs_block_their_interior_only() {
    let board = [bounds(10, 10, 1), keepout(1, 3, 2, 6, 8), keepout(2, 8, 0, 9, 10)];
    for (wire, said) in [
        // Along each side, over the corners.
        (&[0, 2, 8, 2][..], "0 0"),
        (&[0, 8, 8, 8], "0 0"),
        (&[3, 0, 3, 10], "0 0"),
        (&[6, 10, 6, 0], "0 0"),
        // A unit further in, whole or only the last unit.
        (&[0, 3, 8, 3], "20 1"),
        (&[4, 0, 4, 3], "20 1"),
        (&[5, 8, 5, 7], "20 1"),
        // From side to side, begun and ended on the rim; and wholly inside.
        (&[3, 5, 6, 5], "20 1"),
        (&[4, 4, 5, 4], "20 1"),
        // A keep-out one unit wide has no node inside, but an inside.
        (&[8, 5, 9, 5], "20 1"),
        (&[7, 5, 10, 5], "20 1"),
        (&[8, 0, 8, 10], "0 0"),
        // The board's edge beside it is free.
        (&[7, 0, 10, 0], "0 0"),
        (&[7, 10, 10, 10, 10, 0], "0 0"),
        (&[7, 5, 7, 0, 9, 0, 9, 5], "0 0"),
        (&[7, 5, 7, 1, 9, 1, 9, 5], "20 2"),
    ] {
        assert_eq!(verdict(&board, wire), said, "{wire:?}");
    }
}

/// Table P's P11, as document 02's order 3 has it: between two keep-outs that share
/// a side there is no way. The seam goes from (5,2) to (5,8).
#[test]
fn a_seam_is_closed() {
    let board = [bounds(10, 10, 1), keepout(1, 2, 2, 5, 8), keepout(2, 5, 2, 8, 8)];
    for (wire, said) in [
        // Along the whole seam and past its ends, one unit of it at either end,
        // and a piece of it; in any run.
        (&[5, 0, 5, 10][..], "20 1"),
        (&[5, 0, 5, 3], "20 1"),
        (&[5, 10, 5, 7], "20 1"),
        (&[5, 4, 5, 6], "20 1"),
        (&[0, 0, 5, 0, 5, 10], "20 2"),
        (&[0, 0, 0, 2, 5, 2, 5, 3], "20 3"),
        // Up to its end nodes, and over them along the keep-outs' other sides.
        (&[5, 0, 5, 2], "0 0"),
        (&[5, 10, 5, 8, 0, 8], "0 0"),
        (&[0, 2, 10, 2], "0 0"),
        // Round it, now the shortest way.
        (&[5, 0, 8, 0, 8, 10, 5, 10], "0 0"),
        (&[5, 0, 9, 0, 9, 10, 5, 10], "0 2"),
        // Into an interior from it.
        (&[5, 4, 6, 4], "20 1"),
    ] {
        assert_eq!(verdict(&board, wire), said, "{wire:?}");
    }
}

/// Sides that overlap in part, from (5,4) to (5,8), and a gap in the wall above.
#[test]
fn only_what_two_keep_outs_share_is_closed() {
    let board = [
        bounds(10, 20, 1),
        keepout(9, 2, 2, 5, 8),
        keepout(4, 5, 4, 8, 10),
        keepout(6, 2, 12, 5, 14),
        keepout(5, 6, 12, 8, 14),
    ];
    for (wire, said) in [
        (&[5, 0, 5, 4][..], "0 0"),
        (&[5, 0, 5, 5], "20 1"),
        (&[5, 20, 5, 8], "0 0"),
        (&[5, 20, 5, 7], "20 1"),
        (&[2, 8, 5, 8, 5, 10, 8, 10], "0 0"),
        (&[2, 8, 5, 8, 5, 5, 8, 5], "20 2"),
    ] {
        assert_eq!(verdict(&board, wire), said, "{wire:?}");
    }
}

/// Of one run 9 goes before 20 and 20 before 24, also where 20 is by a seam: wire 3
/// along x = 8 is 3 away from the seam, which is nearer than the clearance of 4.
#[test]
fn a_seam_in_the_order_of_codes() {
    let board =
        [bounds(12, 10, 4), keepout(1, 2, 2, 5, 8), keepout(2, 5, 2, 8, 8), lay(3, 8, 0, 8, 10)];
    assert_eq!(verdict(&board, &[5, 3, 5, 11]), "9 1");
    assert_eq!(verdict(&board, &[5, 3, 5, 7]), "20 1");
    assert_eq!(verdict(&board, &[5, 0, 5, 2]), "24 1");
    assert_eq!(verdict(&board, &[4, 0, 4, 2, 5, 2, 5, 4]), "24 2");
}

/// A wire along y = 10 from x = 10 to 20, clearance 3.
#[test]
fn wires_keep_the_clearance() {
    let board = [bounds(30, 30, 3), lay(1, 10, 10, 20, 10)];
    for (wire, said) in [
        // Above and below, at three units and at two.
        (&[0, 13, 30, 13][..], "0 0"),
        (&[0, 7, 30, 7], "0 0"),
        (&[0, 12, 30, 12], "24 1"),
        (&[0, 8, 30, 8], "24 1"),
        // Beyond the ends.
        (&[7, 0, 7, 30], "0 0"),
        (&[23, 0, 23, 30], "0 0"),
        (&[8, 0, 8, 30], "24 1"),
        (&[22, 30, 22, 0], "24 1"),
        (&[0, 10, 7, 10], "0 0"),
        (&[0, 10, 8, 10], "24 1"),
        // Aslant of an end it is enough to be far in x or in y.
        (&[23, 13, 30, 13], "0 0"),
        (&[22, 13, 22, 30], "0 0"),
        (&[23, 12, 30, 12], "0 0"),
        (&[22, 12, 30, 12], "24 1"),
        // Across, touching, and on it.
        (&[15, 0, 15, 30], "24 1"),
        (&[15, 10, 15, 30], "24 1"),
        (&[10, 10, 20, 10], "24 1"),
    ] {
        assert_eq!(verdict(&board, wire), said, "{wire:?}");
    }
}

/// P6's wall: its box reaches past the edge, so no way leads along y = 0.
#[test]
fn boxes_are_not_trimmed() {
    let wall = [bounds(10, 10, 1), lay(1, 5, 0, 5, 10)];
    assert_eq!(verdict(&wall, &[2, 0, 8, 0]), "24 1");
    assert_eq!(verdict(&wall, &[2, 5, 2, 10, 8, 10, 8, 5]), "24 2");
    // P7: at the clearance of 1, but not with one of 2.
    assert_eq!(verdict(&wall, &[4, 0, 4, 10]), "0 0");
    assert_eq!(verdict(&[bounds(10, 10, 2), wall[1].clone()], &[4, 0, 4, 10]), "24 1");
    // A wire that ends on the edge is passed neither on it nor beside it.
    let pole = [bounds(10, 10, 2), lay(1, 5, 0, 5, 4)];
    assert_eq!(verdict(&pole, &[0, 0, 3, 0, 3, 6, 7, 6, 7, 0, 10, 0]), "0 0");
    assert_eq!(verdict(&pole, &[0, 0, 4, 0]), "24 1");
}

#[test]
fn a_wire_may_touch_and_cross_itself() {
    let board = [bounds(20, 20, 5)];
    for (wire, said) in [
        // A loop that crosses its first run: 5 + 2 + 3 + 3, ends 2 and 1 apart.
        (&[5, 5, 10, 5, 10, 7, 7, 7, 7, 4][..], "0 10"),
        // Back to a point of the first run, along it, and away: 9 + 1 + 5 + 1 + 3
        // + 3, ends 7 and 3 apart.
        (&[0, 0, 9, 0, 9, 1, 4, 1, 4, 0, 7, 0, 7, 3], "0 12"),
        // Once round a square and a unit on: 4 runs of 4, then 1; the last run
        // lies on the first.
        (&[4, 4, 8, 4, 8, 8, 4, 8, 4, 4, 5, 4], "0 16"),
        // The last corner lies on the first run: 8 + 2 + 4 + 2, ends 4 apart.
        (&[0, 0, 8, 0, 8, 2, 4, 2, 4, 0], "0 12"),
    ] {
        assert_eq!(verdict(&board, wire), said, "{wire:?}");
    }
}

/// P3's keep-out: the shortest way round it is 13 either way.
#[test]
fn the_excess_is_counted_from_the_shortest() {
    let board = [bounds(10, 10, 1), keepout(1, 3, 2, 6, 8)];
    for (wire, said) in [
        (&[1, 5, 3, 5, 3, 8, 8, 8, 8, 5][..], "0 0"),
        (&[1, 5, 1, 2, 8, 2, 8, 5], "0 0"),
        (&[8, 5, 8, 2, 1, 2, 1, 5], "0 0"),
        (&[1, 5, 1, 9, 8, 9, 8, 5], "0 2"),
        (&[1, 5, 0, 5, 0, 0, 10, 0, 10, 5, 8, 5], "0 10"),
    ] {
        assert_eq!(verdict(&board, wire), said, "{wire:?}");
    }
}

/// Fourteen walls: the odd ones stand on the lower edge and leave what is above
/// y = 102, the even ones hang from the upper edge and leave what is below 98.
/// From (0,102) to (30,98) the shortest goes through the middle, 30 along and 4
/// down or up thirteen times, in 27 runs. An ask is refused with 13. Round them,
/// along an edge, it is 30 along and 200 up and down, in three runs.
#[test]
fn the_excess_is_counted_from_a_shortest_of_any_number_of_runs() {
    let mut board = vec![bounds(30, 200, 1)];
    for wall in 1..=14 {
        let (y0, y1) = if wall % 2 == 1 { (0, 102) } else { (98, 200) };
        board.push(keepout(wall, 2 * wall, y0, 2 * wall + 1, y1));
    }
    let asked = answers(&[board.clone(), vec![ask(0, 102, 30, 98)]].concat());
    assert_eq!(asked[15], "13");
    let shortest = 30 + 13 * 4;
    let round = format!("0 {}", 30 + 200 - shortest);
    assert_eq!(verdict(&board, &[0, 102, 0, 0, 30, 0, 30, 98]), round);
    assert_eq!(verdict(&board, &[0, 102, 0, 200, 30, 200, 30, 98]), round);
    assert_eq!(verdict(&board, &[30, 98, 30, 0, 0, 0, 0, 102]), round);
    // A bump of one unit in the way along the edge: two units more.
    let aside = [0, 102, 0, 0, 1, 0, 1, 1, 2, 1, 2, 0, 30, 0, 30, 98];
    assert_eq!(verdict(&board, &aside), format!("0 {}", 30 + 200 + 2 - shortest));
    // Twelve walls lie between these ends: 24 runs can be drawn, with no excess.
    let mut through = vec![0, 102];
    for wall in 1..=12 {
        let (here, next) = if wall % 2 == 1 { (102, 98) } else { (98, 102) };
        through.extend([2 * wall + 1, here, 2 * wall + 1, next]);
    }
    assert_eq!(through.len(), 50);
    assert_eq!(verdict(&board, &through), "0 0");
    // One run more is one too many.
    through.extend([30, 102]);
    assert_eq!(verdict(&board, &through), "22");
}

/// The longest board and the longest wire: 24 runs of 30,000.
#[test]
fn the_largest_numbers() {
    let board = [bounds(30_000, 30_000, 200)];
    let mut wire = vec![0, 0];
    for k in 0..24 {
        wire.extend([[30_000, 0], [30_000, 30_000], [0, 30_000], [0, 0]][k % 4]);
    }
    assert_eq!(verdict(&board, &wire), "10");
    wire[49] = 1;
    assert_eq!(verdict(&board, &wire), format!("0 {}", 24 * 30_000 - 2));
}
