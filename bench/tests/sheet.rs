//! The sheet and the form of a file. Expected lines are document 01's or by
//! hand.

mod common;

use std::io::{self, Read};

use bench::board::Board;
use bench::sheet::{self, Stopped};
use common::{ask, bounds, sheet, worked_input, WORKED_SHEET};

#[test]
fn worked_sheet() {
    assert_eq!(sheet(&worked_input()), WORKED_SHEET);
}

#[test]
fn the_lays_bytes_are_the_documents() {
    let bytes = [0x03, 0, 0x07, 0, 0x01, 0, 0x05, 0, 0x08, 0, 0x05, 0];
    assert_eq!(&worked_input()[24..36], &bytes);
}

#[test]
fn short_files() {
    let two = [bounds(10, 10, 1), ask(0, 0, 3, 0)].concat();
    assert_eq!(sheet(&two[..0]), "end\n");
    assert_eq!(sheet(&two[..1]), "1 1\nend\n");
    assert_eq!(sheet(&two[..11]), "1 1\nend\n");
    assert_eq!(sheet(&two[..12]), "1 0\nend\n");
    assert_eq!(sheet(&two[..13]), "1 0\n2 1\nend\n");
    assert_eq!(sheet(&two[..23]), "1 0\n2 1\nend\n");
    assert_eq!(sheet(&two), "1 0\n2 0 3 0 0:0 3:0\nend\n");
}

/// A bounds record and then asks for two neighbours, `count` records in all.
fn long_file(count: usize) -> Vec<u8> {
    let mut file = bounds(3, 3, 1);
    for _ in 1..count {
        file.extend(ask(0, 0, 1, 0));
    }
    file
}

/// The last two lines of a sheet and the number of its lines.
fn tail(file: &[u8]) -> (usize, String) {
    let sheet = sheet(file);
    let lines: Vec<&str> = sheet.lines().collect();
    (lines.len(), lines[lines.len() - 2..].join(", "))
}

#[test]
fn the_longest_file() {
    let whole = (65_536, "65535 0 1 0 0:0 1:0, end".to_string());
    let cut = (65_536, "65535 0 1 0 0:0 1:0, cut".to_string());
    assert_eq!(tail(&long_file(65_535)), whole);
    assert_eq!(tail(&long_file(65_536)), cut);
    let mut one_byte_more = long_file(65_535);
    one_byte_more.push(0);
    assert_eq!(tail(&one_byte_more), cut);
}

#[test]
fn a_short_piece_as_the_last_record_there_can_be() {
    let mut file = long_file(65_534);
    file.extend([4, 0, 0]);
    assert_eq!(tail(&file), (65_536, "65535 1, end".to_string()));
}

/// Gives its bytes one at a time, then fails or ends.
struct Slow<'a> {
    bytes: &'a [u8],
    fails: bool,
}

impl Read for Slow<'_> {
    fn read(&mut self, into: &mut [u8]) -> io::Result<usize> {
        match self.bytes.split_first() {
            Some((first, rest)) => {
                into[0] = *first;
                self.bytes = rest;
                Ok(1)
            }
            None if self.fails => Err(io::Error::other("the cable is out")),
            None => Ok(0),
        }
    }
}

#[test]
fn input_may_come_byte_by_byte() {
    let file = worked_input();
    let mut lines = Vec::new();
    let input = Slow { bytes: &file, fails: false };
    sheet::print(input, &mut lines, Board::default(), |_| {}).expect("it can be read");
    assert_eq!(String::from_utf8(lines).unwrap(), WORKED_SHEET);
}

#[test]
fn a_failed_read_is_not_the_end() {
    for (length, record, lines) in [(0, 1, ""), (12, 2, "1 0\n"), (17, 2, "1 0\n")] {
        let file = worked_input();
        let mut printed = Vec::new();
        let input = Slow { bytes: &file[..length], fails: true };
        match sheet::print(input, &mut printed, Board::default(), |_| {}) {
            Err(Stopped::Read { record: at, .. }) => assert_eq!(at, record),
            other => panic!("{length} bytes and a failure gave {other:?}"),
        }
        assert_eq!(String::from_utf8(printed).unwrap(), lines);
    }
}
