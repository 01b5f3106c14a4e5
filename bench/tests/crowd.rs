//! Crowding sheets worked by hand from document 02's order 5, and document 01's and
//! order 3's rules.

mod common;

use common::crowd::{sheet, sheet_by};
use common::{ask, bounds, keepout, lay, takeout, undo, worked_input};

use bench::crowd::slip::Slip;
use bench::fault::Fault;
use bench::route::Method;

/// Sees that the board of the records has these tracks, by either way.
fn assert_tracks(records: &[Vec<u8>], tracks: &[&str]) {
    let expected: String = tracks.iter().chain(&["end"]).map(|line| format!("{line}\n")).collect();
    assert_eq!(sheet(&records.concat()), expected);
    for method in [Method::Unit, Method::Wide] {
        let printed = sheet_by(&records.concat(), method, Fault::None, Slip::None);
        assert_eq!(printed, expected, "{method:?}");
    }
}

const EMPTY: [&str; 4] = ["x 0 1 1", "x 10 1 1", "y 0 1 1", "y 10 1 1"];

/// Document 01's board after record 3.
const WORKED: [&str; 13] = [
    "x 0 4 2", "x 1 4 2", "x 3 2 2", "x 5 1 1", "x 6 3 3", "x 10 6 6", "y 0 5 5", "y 2 5 5",
    "y 3 3 2", "y 6 0 0", "y 7 1 1", "y 8 1 1", "y 10 5 5",
];

/// The same without its wire.
const KEEPOUT_ALONE: [&str; 8] =
    ["x 0 3 3", "x 3 3 3", "x 6 3 3", "x 10 3 3", "y 0 3 3", "y 2 3 3", "y 8 3 3", "y 10 3 3"];

fn worked(records: usize) -> Vec<Vec<u8>> {
    worked_input().chunks(12).take(records).map(<[u8]>::to_vec).collect()
}

#[test]
fn an_empty_board_has_its_sides() {
    assert_tracks(&[bounds(10, 10, 2)], &EMPTY);
    let flat = ["x 0 1 1", "x 30000 1 1", "y 0 1 1", "y 1 1 1"];
    assert_tracks(&[bounds(30_000, 1, 200)], &flat);
}

#[test]
fn before_bounds_there_is_a_code() {
    let early = [keepout(1, 3, 2, 6, 8), undo(), bounds(0, 10, 2), b"short".to_vec()].concat();
    for file in [&early[..], b""] {
        assert_eq!(sheet(file), "2\nend\n");
    }
}

#[test]
fn the_worked_board() {
    assert_tracks(&worked(3), &WORKED);
    // A refused ask changes nothing; a take-out and undos do.
    assert_tracks(&worked(4), &WORKED);
    assert_tracks(&worked(5), &KEEPOUT_ALONE);
    assert_tracks(&worked(6), &KEEPOUT_ALONE);
    assert_tracks(&worked(7), &WORKED);
    assert_tracks(&worked(8), &KEEPOUT_ALONE);
    assert_tracks(&worked(9), &EMPTY);
    assert_tracks(&worked(10), &EMPTY);
}

#[test]
fn bounds_begin_anew_and_refused_records_change_nothing() {
    let again = [worked(3), vec![bounds(10, 10, 1)]].concat();
    assert_tracks(&again, &EMPTY);
    let refused = [keepout(1, 0, 0, 1, 1), keepout(2, 2, 2, 4, 4), lay(7, 0, 0, 0, 9), takeout(9)];
    let others = [bounds(10, 10, 201), ask(0, 0, 10, 0), vec![9; 12], vec![2; 5]];
    assert_tracks(&[worked(3), refused.to_vec(), others.to_vec()].concat(), &WORKED);
}

/// Table P's P11: the seam is shut from (5,2) to (5,8).
#[test]
fn a_seam_is_shut() {
    let board = [bounds(10, 10, 1), keepout(1, 2, 2, 5, 8), keepout(2, 5, 2, 8, 8)];
    let tracks = [
        "x 0 3 3", "x 2 3 3", "x 5 2 1", "x 8 3 3", "x 10 3 3", "y 0 4 4", "y 2 4 4", "y 8 4 4",
        "y 10 4 4",
    ];
    assert_tracks(&board, &tracks);
}

/// Sides that overlap in part: only (5,4) to (5,6) has a keep-out on both sides. The
/// board's border has none beside it, so keep-outs flush with it leave it open.
#[test]
fn a_part_of_a_side_is_a_seam() {
    let board = [bounds(10, 10, 1), keepout(1, 0, 0, 5, 6), keepout(2, 5, 4, 10, 10)];
    let tracks = ["x 0 3 3", "x 5 2 1", "x 10 3 3", "y 0 2 2", "y 4 1 0", "y 6 1 1", "y 10 2 2"];
    assert_tracks(&board, &tracks);
}

/// P6's wire from edge to edge. Its box reaches past the edge, where it has no track,
/// and it shuts the part of the edge that it goes over; its pins have no tracks.
#[test]
fn boxes_are_not_trimmed() {
    let board = [bounds(10, 10, 1), lay(1, 5, 0, 5, 10)];
    let tracks = ["x 0 1 1", "x 4 1 1", "x 6 1 1", "x 10 1 1", "y 0 2 1", "y 10 2 1"];
    assert_tracks(&board, &tracks);
}

/// A keep-out one unit wide has no node inside, but shuts what crosses it.
#[test]
fn a_keepout_without_inner_nodes_shuts_edges() {
    let board = [bounds(10, 10, 1), keepout(1, 4, 0, 5, 10), keepout(2, 7, 3, 9, 6)];
    let tracks = [
        "x 0 3 3", "x 4 3 3", "x 5 3 3", "x 7 3 3", "x 9 3 3", "x 10 3 3", "y 0 5 5", "y 3 4 1",
        "y 6 4 1", "y 10 5 5",
    ];
    assert_tracks(&board, &tracks);
}

/// 46 keep-outs (2k+1,0)-(2k+2,1), the last of them up to y = 2: 94 vertical tracks,
/// so a level one has 93 edges. The last keep-out shuts the level track at 1 from
/// x = 91 to 92, its 92nd edge.
#[test]
fn a_track_has_up_to_93_edges() {
    let mut board = vec![bounds(100, 9, 1)];
    for k in 0..46 {
        board.push(keepout(k + 1, 2 * k + 1, 0, 2 * k + 2, if k == 45 { 2 } else { 1 }));
    }
    let vertical = (0..=92).chain([100]).map(|x| format!("x {x} 3 3"));
    let level = ["y 0 93 93", "y 1 92 91", "y 2 93 93", "y 9 93 93"].map(str::to_string);
    let tracks: Vec<String> = vertical.chain(level).collect();
    assert_eq!(tracks.len(), 94 + 4);
    assert_tracks(&board, &tracks.iter().map(String::as_str).collect::<Vec<_>>());
}

#[test]
fn the_records_that_are_read_count() {
    let at_limit = [worked(3), vec![ask(0, 0, 0, 1); 65_532]].concat().concat();
    assert_eq!(sheet(&at_limit), WORKED.map(|line| format!("{line}\n")).concat() + "end\n");
    let over = |more: &[u8]| sheet(&[&at_limit, more].concat());
    let cut = WORKED.map(|line| format!("{line}\n")).concat() + "cut\n";
    assert_eq!(over(&bounds(5, 5, 1)), cut);
    assert_eq!(over(b"x"), cut);
    assert_eq!(sheet(&vec![0; 12 * 65_535 + 1]), "2\ncut\n");
}
