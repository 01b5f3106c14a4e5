//! Answers in words: what was found, or why not and by what. Expected words are written by
//! hand from documents 01 and 02.

mod common;

use bench::story::{tell, Script};
use bench::text::records;
use common::{record, sheet, undo};

/// The words for each record of a text.
fn words(text: &str) -> Vec<String> {
    let script = Script::of_text(&records(text.as_bytes()).expect("it can be read"));
    let (mut all, printed) = (Vec::new(), sheet(&script.file));
    tell(&script, Some(&printed), usize::MAX, |step| all.push(step.answered.words()))
        .expect("the sheets agree");
    all
}

/// The words for the last record of a text.
fn last(text: &str) -> String {
    words(text).pop().expect("a record")
}

const WORKED: &str = "bounds 10 10 2\nkeepout 1 3 2 6 8\nlay 7 1 5 8 5\n";

#[test]
fn what_was_done() {
    assert_eq!(
        words(&format!("{WORKED}takeout 7\nask 1 5 9 9\nundo\nundo\nundo\n")),
        [
            "a new board, 10 \u{d7} 10, clearance 2",
            "added; 1 of 46 blocks",
            "laid: length 13, detour 3, 4 runs: 1:5 3:5 3:8 8:8 8:5; 5 of 46 blocks",
            "taken out: wire 7 from (1,5) to (8,5)",
            "found: length 12, detour 0, 4 runs: 1:5 3:5 3:8 9:8 9:9",
            "undone: wire 7 stands again; 2 of 32 changes are kept",
            "undone: wire 7 is gone; 1 of 32 changes are kept",
            "undone: keep-out 1 is gone; 0 of 32 changes are kept",
        ]
    );
}

/// A board, the record that is refused on it, and why.
#[test]
fn why_it_was_refused() {
    for (board, record, why) in [
        ("", "undo", "2: no bounds were accepted yet"),
        (
            "",
            "bounds 0 9 201",
            "3: the width 0 is not 1 to 30000 and the clearance 201 is not 1 to 200",
        ),
        (WORKED, "bounds 1 40000 1", "3: the height 40000 is not 1 to 30000"),
        (WORKED, "lay 1 0 0 1 0", "4: id 1 is in use, by keep-out 1 (3,2)-(6,8)"),
        (WORKED, "keepout 7 0 0 1 1", "4: id 7 is in use, by wire 7 from (1,5) to (8,5)"),
        (WORKED, "takeout 2", "5: no item has id 2; in use: 1 and 7"),
        ("bounds 9 9 1\n", "takeout 2", "5: no item has id 2; the board is empty"),
        (WORKED, "keepout 2 4 0 4 1", "6: x0 4 is not below x1 4"),
        (WORKED, "keepout 2 4 1 5 11", "6: y1 11 is off the board, which is 10 high"),
        (WORKED, "keepout 2 5 0 7 3", "7: it overlaps keep-out 1 (3,2)-(6,8)"),
        (WORKED, "keepout 2 7 7 9 9", "8: wire 7 runs through it"),
        (WORKED, "ask 11 0 0 0", "9: pin 1 (11,0) is off the board, which is 10 \u{d7} 10"),
        (
            WORKED,
            "ask 0 11 12 0",
            "9: pin 1 (0,11) and pin 2 (12,0) are off the board, which is 10 \u{d7} 10",
        ),
        (WORKED, "ask 4 4 4 4", "10: both pins are at (4,4)"),
        (WORKED, "ask 9 1 4 5", "11: pin 2 (4,5) lies inside keep-out 1 (3,2)-(6,8)"),
        (WORKED, "ask 1 1 9 9", "18: pin 2 (9,9) is within 2 of wire 7"),
        ("bounds 9 9 1\n", "undo", "15: there is no kept change to undo"),
    ] {
        assert_eq!(last(&format!("{board}{record}\n")), format!("refused, {why}"), "{record}");
    }
}

/// Document 02's order 3: a pin on a seam, and a keep-out that would close one over a wire.
#[test]
fn seams_are_told() {
    let relay = "bounds 10 10 1\nkeepout 1 2 2 5 8\nkeepout 2 5 2 8 8\n";
    let pin =
        "refused, 11: pin 1 (5,5) has keep-outs all round it, keep-out 1 (2,2)-(5,8) one of them";
    assert_eq!(last(&format!("{relay}ask 5 5 9 9\n")), pin);
    let wire = "bounds 10 10 1\nkeepout 1 2 2 5 8\nlay 7 5 0 5 10\nkeepout 2 5 2 8 8\n";
    assert_eq!(last(wire), "refused, 8: it would close the seam to keep-out 1 over wire 7");
}

#[test]
fn no_wire_says_how_far_one_gets() {
    let wall = "bounds 10 10 1\nlay 5 5 0 5 10\n";
    assert_eq!(
        last(&format!("{wall}ask 2 5 8 6\n")),
        "refused, 12: no wire can join them; from (2,5) a wire gets as far as (4,6), 4 from (8,6); \
         without wire 5 one could"
    );
    // Two walls: taking out one of them is not enough. Pins that are as near as they get.
    assert_eq!(
        last(&format!("{wall}lay 6 7 0 7 10\nask 4 5 8 5\n")),
        "refused, 12: no wire can join them; from (4,5) no wire gets nearer to (8,5)"
    );
}

/// Twelve walls that are passed above and below in turn, and then a part too many.
#[test]
fn too_many_runs_and_blocks_are_counted() {
    let mut text = String::from("bounds 50 12 1\n");
    for wall in 0..12 {
        let (low, high) = if wall % 2 == 0 { (0, 9) } else { (3, 12) };
        text += &format!("lay {} {x} {low} {x} {high}\n", wall + 1, x = 3 + 4 * wall);
    }
    let runs = last(&format!("{text}ask 0 0 50 12\n"));
    assert!(
        runs.starts_with("refused, 13: the shortest wire has 26 runs, and 24 are the most"),
        "{runs}"
    );
    text += "lay 13 0 0 45 0\n";
    for part in 0..10 {
        text += &format!("keepout {} {} 4 {} 5\n", 20 + part, 4 + 4 * part, 5 + 4 * part);
    }
    let full = "there are 46 blocks and would be";
    assert_eq!(
        last(&format!("{text}keepout 99 48 0 49 1\n")),
        format!("refused, 14: {full} 47; 46 are the most")
    );
    let wire = last(&format!("{text}lay 99 49 1 50 9\n"));
    assert_eq!(wire, format!("refused, 14: the wire has 2 runs: {full} 48; 46 are the most"));
}

#[test]
fn what_is_no_record_is_told() {
    let said = |piece: Vec<u8>| {
        let script = Script::of_records(piece);
        let mut said = String::new();
        tell(&script, None, 1, |step| said = step.answered.words()).expect("no sheet to differ");
        said
    };
    for (piece, why) in [
        (undo()[..5].to_vec(), "a last piece of 5 bytes, not 12"),
        (record(7, 0, [0; 4]), "kind 7 is none of 1 to 6, 8 and 9"),
        (record(9, 0, [1, 2, 3, 4]), "the id is 0, and kind 9 needs one from 1 to 65535"),
        ([&[6, 3][..], &[0; 10]].concat(), "byte 1 is 3, not 0"),
        (record(3, 0, [1, 2, 3, 4]), "the id is 0, and kind 3 needs one from 1 to 65535"),
        (record(4, 7, [1, 2, 3, 4]), "the id is 7, and kind 4 has none, so 0 belongs there"),
        (record(5, 7, [0, 0, 8, 0]), "8 stands where kind 5 has a 0"),
        (record(1, 0, [9, 9, 1, 5]), "5 stands where kind 1 has a 0"),
    ] {
        assert_eq!(said(piece), format!("refused, 1: {why}"));
    }
}

/// A sheet that is not the second router's ends the telling, wherever it differs.
#[test]
fn a_sheet_that_differs_is_not_told() {
    let script = Script::of_text(&records(WORKED.as_bytes()).expect("it can be read"));
    let good = sheet(&script.file);
    for (bad, place) in [
        (good.replace("13 3 1:5", "12 3 1:5"), "line 3"),
        (good.replace("2 0\n", "2 7\n"), "line 2"),
        (good.replace("end\n", "cut\n"), "the last line"),
        (good.replace("end\n", ""), "the last line"),
        (String::new(), "line 1"),
    ] {
        let told = tell(&script, Some(&bad), usize::MAX, |_| {}).expect_err(place);
        assert!(told.starts_with(&format!("the two routers differ at {place}")), "{told}");
    }
    assert!(tell(&script, Some(&good), usize::MAX, |_| {}).is_ok());
}
