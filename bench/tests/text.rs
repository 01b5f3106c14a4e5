//! Records as text and back. Expected bytes are written by hand.

mod common;

use bench::rng::Rng;
use bench::text::{pack, unpack, BadLine};
use common::{ask, bounds, first_bad, keepout, lay, record, takeout, undo};

#[test]
fn each_form() {
    for (line, record) in [
        ("bounds 10 300 2", bounds(10, 300, 2)),
        ("keepout 1 3 2 6 8", keepout(1, 3, 2, 6, 8)),
        ("lay 7 1 5 8 5", lay(7, 1, 5, 8, 5)),
        ("ask 1 1 9 65535", ask(1, 1, 9, 65_535)),
        ("takeout 258", takeout(258)),
        ("undo", undo()),
        ("askstraight 1 1 9 65535", record(8, 0, [1, 1, 9, 65_535])),
        ("laystraight 7 1 5 8 5", record(9, 7, [1, 5, 8, 5])),
    ] {
        assert_eq!(pack(line.as_bytes()), Ok(record.clone()), "{line}");
        assert_eq!(unpack(&record), format!("{line}\n"));
    }
}

#[test]
fn blank_lines_and_comments() {
    let text = "# a board\n\n  bounds 10 10 2  # small\r\n\t undo\n#";
    assert_eq!(pack(text.as_bytes()), Ok([bounds(10, 10, 2), undo()].concat()));
    assert_eq!(pack(b""), Ok(Vec::new()));
}

#[test]
fn malformed_records_are_given_as_bytes() {
    let byte_1 = [&[6, 1][..], &[0; 10]].concat();
    for (record, line) in [
        (record(9, 0, [0; 4]), "bytes 09 00 00 00 00 00 00 00 00 00 00 00\n"),
        (record(7, 1, [0; 4]), "bytes 07 00 01 00 00 00 00 00 00 00 00 00\n"),
        (record(8, 1, [0; 4]), "bytes 08 00 01 00 00 00 00 00 00 00 00 00\n"),
        (record(10, 0, [0; 4]), "bytes 0a 00 00 00 00 00 00 00 00 00 00 00\n"),
        (byte_1, "bytes 06 01 00 00 00 00 00 00 00 00 00 00\n"),
        (record(5, 1, [0, 0, 0, 0xabc]), "bytes 05 00 01 00 00 00 00 00 00 00 bc 0a\n"),
        (record(1, 0, [1, 1, 1, 1]), "bytes 01 00 00 00 01 00 01 00 01 00 01 00\n"),
        (vec![3, 0, 7], "bytes 03 00 07\n"),
    ] {
        assert_eq!(unpack(&record), line);
        assert_eq!(pack(line.as_bytes()), Ok(record));
    }
}

#[test]
fn bad_lines_say_where_and_what() {
    for (text, line, what) in [
        ("undo\nunde", 2, "unknown word 'unde'"),
        ("Undo", 1, "unknown word 'Undo'"),
        ("#\n\nbounds 10 10", 3, "bounds takes 3 numbers (W H clearance), not 2"),
        ("ask 1 2 3 4 5", 1, "ask takes 4 numbers (sx sy tx ty), not 5"),
        ("askstraight 1", 1, "askstraight takes 4 numbers (sx sy tx ty), not 1"),
        ("laystraight 1 2 3 4", 1, "laystraight takes 5 numbers (id sx sy tx ty), not 4"),
        ("undo 0", 1, "undo takes no numbers, not 1"),
        ("takeout", 1, "takeout takes 1 number (id), not 0"),
        ("takeout 65536", 1, "id is '65536', not a number from 0 to 65535"),
        ("takeout -1", 1, "id is '-1'"),
        ("takeout +1", 1, "id is '+1'"),
        ("takeout x", 1, "id is 'x'"),
        ("lay 1 2 3 4 0x5", 1, "ty is '0x5'"),
        ("bytes", 1, "bytes takes 1 to 12 bytes, not 0"),
        ("bytes 1 2 3 4 5 6 7 8 9 a b c d", 1, "bytes takes 1 to 12 bytes, not 13"),
        ("bytes 01 2", 1, "'2' is not a byte"),
        ("bytes 01 +2", 1, "'+2' is not a byte"),
        ("bytes 01 0g", 1, "'0g' is not a byte"),
        ("bytes 01\n# so\nundo", 3, "line 1 gave under 12 bytes"),
    ] {
        let BadLine { line: at, what: told } = first_bad(pack(text.as_bytes()), text);
        assert_eq!(at, line, "{text:?}");
        assert!(told.contains(what), "{text:?} gave {told:?}");
    }
    let not_text = first_bad(pack(b"undo\n\xff"), "a byte that is no text");
    assert_eq!(not_text.line, 2);
}

#[test]
fn any_bytes_come_back() {
    let mut rng = Rng::new(1);
    for _ in 0..3_000 {
        let length = rng.range(0, 60) as usize;
        // Small bytes make many well-formed records, any bytes few.
        let most = rng.pick(&[0, 1, 9, 255]);
        let file: Vec<u8> = (0..length).map(|_| rng.range(0, most) as u8).collect();
        assert_eq!(pack(unpack(&file).as_bytes()), Ok(file));
    }
}
