//! The piece file: its ends, its limit, and as text. Expected lines are worked
//! by hand from what the program checkprint is said to print.

mod common;

use bench::drawn::text::{pack, unpack};
use bench::rng::Rng;
use bench::text;
use common::drawn::{fed, sheet, wire};
use common::{bounds, first_bad, keepout, lay, undo};

/// Bounds and a legal wire.
fn start() -> Vec<u8> {
    [fed(bounds(10, 10, 1)), wire(&[0, 0, 3, 0])].concat()
}

#[test]
fn short_files() {
    assert_eq!(sheet(b""), "end\n");
    assert_eq!(sheet(&start()), "1 0 0\nend\n");
    assert_eq!(sheet(b"w\0"), "1 2\nend\n");
    assert_eq!(sheet(&fed(bounds(10, 10, 1))), "end\n");
    // Only wires are counted, and only they have lines.
    let file = [start(), fed(undo()), fed(undo()), wire(&[]), fed(undo()), wire(&[1])].concat();
    assert_eq!(sheet(&file), "1 0 0\n2 22\n3 22\nend\n");
}

#[test]
fn a_piece_cut_short_is_bad() {
    let record = fed(keepout(1, 1, 0, 2, 1));
    for length in 1..record.len() {
        assert_eq!(sheet(&[&start(), &record[..length]].concat()), "1 0 0\nbad\n", "{length}");
    }
    let drawn = wire(&[0, 0, 3, 0, 3, 3]);
    for length in 1..drawn.len() {
        assert_eq!(sheet(&[&start(), &drawn[..length]].concat()), "1 0 0\nbad\n", "{length}");
    }
    assert_eq!(sheet(b"w"), "bad\n");
    assert_eq!(sheet(&[&b"w\xff"[..], &[0; 509]].concat()), "bad\n");
    assert_eq!(sheet(&[&b"w\xff"[..], &[0; 510]].concat()), "1 2\nend\n");
}

#[test]
fn another_letter_is_bad_and_stops_the_reading() {
    for letter in (0..=255).filter(|letter| !b"rw".contains(letter)) {
        let file = [start(), vec![letter], start()].concat();
        assert_eq!(sheet(&file), "1 0 0\nbad\n", "letter {letter}");
    }
}

/// The last two lines, and how many there are.
fn tail(file: &[u8]) -> (usize, String) {
    let sheet = sheet(file);
    let lines: Vec<&str> = sheet.lines().collect();
    (lines.len(), lines[lines.len() - 2..].join(", "))
}

#[test]
fn the_longest_file() {
    let wires = |count: usize| [start(), b"w\0".repeat(count)].concat();
    // Bounds are a piece, but have no line.
    let end = (65_535, "65534 22, end".to_string());
    let cut = (65_535, "65534 22, cut".to_string());
    assert_eq!(tail(&wires(65_533)), end);
    assert_eq!(tail(&wires(65_534)), cut);
    // Whatever is left is not looked at.
    for left in [&b"w"[..], b"r", b"x", &[0], &start()] {
        assert_eq!(tail(&[&wires(65_533), left].concat()), cut, "{left:?}");
    }
    // The last piece itself may be bad.
    let bad = (65_534, "65533 22, bad".to_string());
    for last in [&b"w"[..], b"r", b"x", b"w\x01\0"] {
        assert_eq!(tail(&[&wires(65_532), last].concat()), bad, "{last:?}");
    }
    // Records count as well.
    let records = [start(), fed(undo()).repeat(65_533)].concat();
    assert_eq!(sheet(&records), "1 0 0\nend\n");
    assert_eq!(sheet(&[records, b"w\0".to_vec()].concat()), "1 0 0\ncut\n");
}

#[test]
fn a_draw_line_is_a_wire() {
    let text = "# a board\nbounds 10 10 2\ndraw 0 0 300 1  # a wire\n\ndraw\ndraw 65535\n";
    let file = [fed(bounds(10, 10, 2)), wire(&[0, 0, 300, 1]), wire(&[]), wire(&[65_535])].concat();
    assert_eq!(pack(text.as_bytes()), Ok(file.clone()));
    assert_eq!(unpack(&file), "bounds 10 10 2\ndraw 0 0 300 1\ndraw\ndraw 65535\n");
    // Without such lines it packs as ever.
    let plain = "bounds 10 10 2\nlay 7 1 5 8 5\n";
    let records = [bounds(10, 10, 2), lay(7, 1, 5, 8, 5)];
    assert_eq!(text::pack(plain.as_bytes()), Ok(records.concat()));
    assert_eq!(pack(plain.as_bytes()), Ok(records.map(fed).concat()));
}

#[test]
fn what_is_no_piece_is_given_as_bytes() {
    for (file, text) in [
        (b"x".to_vec(), "rest 78\n"),
        (b"r\x01\0".to_vec(), "rest 72 01 00\n"),
        (b"w\x02\x05".to_vec(), "rest 77 02 05\n"),
        (fed(common::record(9, 0, [0; 4])), "bytes 09 00 00 00 00 00 00 00 00 00 00 00\n"),
        (vec![0; 17], "rest 00 00 00 00 00 00 00 00 00 00 00 00 00 00 00 00\nrest 00\n"),
    ] {
        assert_eq!(unpack(&file), text);
        assert_eq!(pack(text.as_bytes()), Ok(file));
    }
    // A short record is a piece cut short.
    assert_eq!(pack(b"bytes 01 00"), Ok(b"r\x01\0".to_vec()));
}

#[test]
fn bad_lines_say_where_and_what() {
    let numbers = " 1".repeat(256);
    for (text, line, what) in [
        ("undo\ndrew 1", 2, "unknown word 'drew'"),
        ("draw 1 x", 1, "y of corner 1 is 'x', not a number from 0 to 65535"),
        ("#\ndraw 1 2 -3", 2, "x of corner 2 is '-3'"),
        ("draw 65536", 1, "x of corner 1 is '65536'"),
        (&format!("draw{numbers}"), 1, "draw takes up to 255 numbers, not 256"),
        ("rest", 1, "rest takes at least 1 byte"),
        ("rest 7", 1, "'7' is not a byte"),
        ("rest 77\ndraw 1", 2, "line 1 began the rest"),
        ("rest 77\n\nundo", 3, "line 1 began the rest"),
        ("bytes 01\ndraw 1", 2, "line 1 gave under 12 bytes"),
        ("bytes 01\nrest 01", 2, "line 1 gave under 12 bytes"),
    ] {
        let bad = first_bad(pack(text.as_bytes()), text);
        assert_eq!(bad.line, line, "{text:?}");
        assert!(bad.what.contains(what), "{text:?} gave {:?}", bad.what);
    }
    for (text, line, word) in [("undo\ndraw 1 2", 2, "draw"), ("rest 01", 1, "rest")] {
        let bad = first_bad(text::pack(text.as_bytes()), text);
        assert_eq!(bad.line, line, "{text:?}");
        assert!(bad.what.starts_with(&format!("a record file holds no '{word}'")), "{bad:?}");
    }
}

#[test]
fn any_bytes_come_back() {
    let mut rng = Rng::new(1);
    for _ in 0..3_000 {
        let mut file = Vec::new();
        for _ in 0..rng.range(0, 6) {
            let any: Vec<u8> = (0..12).map(|_| rng.range(0, 6) as u8).collect();
            let numbers: Vec<u16> = (0..rng.range(0, 9)).map(|_| rng.number() as u16).collect();
            file.extend(if rng.chance(50) { fed(any) } else { wire(&numbers) });
        }
        let odd = rng.pick(&[0, 0, 1, 5, 40]);
        file.extend((0..odd).map(|_| rng.pick(b"rwx\0\x03\xff")));
        assert_eq!(pack(unpack(&file).as_bytes()), Ok(file));
    }
}
