//! What is told of blocked pins, seams, and fewer turns, compared: programs that have
//! them wrong are found on the random files, and shrunk to the few records that show it.

mod common;

use bench::compare::{compare, Form, Records, Report, Rival, Source};
use bench::peer::Peer;
use common::programs::spoiled;

/// Random records that are compared with each of them.
const RECORDS: usize = 20_000;

fn compared(rival: &Rival) -> Report {
    let files = Records::files(RECORDS, 1);
    let sources: Vec<Source> = files.into_iter().map(Source::Made).collect();
    compare(rival, &sources, |_| {}).expect("a comparison")
}

/// The peer that prints sheets with one piece of its source replaced, and the
/// fewest records that show it; two more where three or four keep-outs meet at the
/// pin in the place of two.
#[test]
fn wrong_programs_are_found_and_shrunk() {
    for (name, piece, by, fewest) in [
        // Bounds, two wires, and a lay or ask in the boxes of both.
        ("pins-laid-first", "if (*id != 0 && *id < items[i].id)", "if (*id != 0)", 4),
        ("pins-largest", "*id < items[i].id", "*id > items[i].id", 4),
        // Bounds, a keep-out over a wire's box, and a lay or ask in both.
        ("pins-wires", "= held == 15;", "= held == 15 && ids[1] == 0;", 4),
        // Bounds, an item, and a lay or ask.
        ("pins-number", "code = check_pin(2,", "code = check_pin(1,", 3),
        // Bounds, two keep-outs, and a lay or ask along their seam or on it.
        ("seams-open", "    close_seams(q);\n", "", 4),
        ("seams-pins", "return held == 15 &&", "return 0 &&", 4),
        ("seams-ids", "cells_held(&b[j], x, y) != 0", "cells_held(&b[j], x, y) == 15", 4),
        // Bounds, a keep-out, a wire along it, and a keep-out on the other side.
        ("seams-wires", "|| closes_over_wire(&area)", "", 4),
        // Bounds, an item, and a kind 8 or 9 round it.
        ("turns-mode", "board.straight = r->kind >= ASK_STRAIGHT", "board.straight = 0", 3),
    ] {
        let program = spoiled(Peer::Sheet, name, piece, by);
        let report = compared(&Rival::new(&program).expect("a program"));
        let found = report.found.unwrap_or_else(|| panic!("{name} went unnoticed"));
        let count = found.shrunk_pieces();
        assert!((fewest..=fewest + 2).contains(&count), "{name}: {count}");
    }
}
