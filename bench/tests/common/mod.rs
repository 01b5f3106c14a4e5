//! What several test files need.
#![allow(dead_code)] // each test file uses its own part

pub mod crowd;
pub mod drawn;
pub mod naive;
pub mod programs;

use bench::board::Board;
use bench::fault::Fault;
use bench::record::Record;
use bench::route::{Method, Router};
use bench::sheet;
use bench::text::BadLine;

/// A record's bytes, put together by hand from document 01's layout.
pub fn record(kind: u8, id: u16, numbers: [u16; 4]) -> Vec<u8> {
    let mut bytes = vec![kind, 0, (id & 255) as u8, (id >> 8) as u8];
    for number in numbers {
        bytes.push((number & 255) as u8);
        bytes.push((number >> 8) as u8);
    }
    bytes
}

pub fn bounds(w: u16, h: u16, clearance: u16) -> Vec<u8> {
    record(1, 0, [w, h, clearance, 0])
}

pub fn keepout(id: u16, x0: u16, y0: u16, x1: u16, y1: u16) -> Vec<u8> {
    record(2, id, [x0, y0, x1, y1])
}

pub fn lay(id: u16, sx: u16, sy: u16, tx: u16, ty: u16) -> Vec<u8> {
    record(3, id, [sx, sy, tx, ty])
}

pub fn ask(sx: u16, sy: u16, tx: u16, ty: u16) -> Vec<u8> {
    record(4, 0, [sx, sy, tx, ty])
}

pub fn takeout(id: u16) -> Vec<u8> {
    record(5, id, [0; 4])
}

pub fn undo() -> Vec<u8> {
    record(6, 0, [0; 4])
}

pub fn ask_straight(sx: u16, sy: u16, tx: u16, ty: u16) -> Vec<u8> {
    record(8, 0, [sx, sy, tx, ty])
}

pub fn lay_straight(id: u16, sx: u16, sy: u16, tx: u16, ty: u16) -> Vec<u8> {
    record(9, id, [sx, sy, tx, ty])
}

/// The naive router looks at every node; larger boards are not for it.
const MOST_NODES: i32 = 4_000;

/// Does a record leave the board small enough for the naive router?
pub fn is_small(record: &[u8]) -> bool {
    is_below(record, MOST_NODES)
}

/// Does a record leave the board with no more than about so many nodes?
pub fn is_below(record: &[u8], nodes: i32) -> bool {
    match Record::read(record) {
        Some(Record::Bounds { w, h, .. }) => w.saturating_mul(h) <= nodes,
        _ => true,
    }
}

/// Document 01's worked input.
pub fn worked_input() -> Vec<u8> {
    let mut records = vec![
        bounds(10, 10, 2),
        keepout(1, 3, 2, 6, 8),
        lay(7, 1, 5, 8, 5),
        ask(1, 1, 9, 9),
        takeout(7),
        ask(1, 5, 9, 9),
    ];
    records.extend((0..4).map(|_| undo()));
    records.concat()
}

/// Its whole output, as document 01 gives it, but for line 4, which document 02's
/// order 2 gives.
pub const WORKED_SHEET: &str = "\
1 0
2 0
3 0 13 3 1:5 3:5 3:8 8:8 8:5
4 18 2 7
5 0
6 0 12 0 1:5 3:5 3:8 9:8 9:9
7 0
8 0
9 0
10 15
end
";

/// The sheet of a file, as the program prints it.
pub fn sheet(file: &[u8]) -> String {
    sheet_by(file, Method::BySize, Fault::None)
}

/// The sheet of a file by one of the searches, perhaps with a planted fault.
pub fn sheet_by(file: &[u8], method: Method, fault: Fault) -> String {
    let mut lines = Vec::new();
    let board = Board::with_router(Router::new(method, fault));
    sheet::print(file, &mut lines, board, |_| {}).expect("memory can be read and written");
    String::from_utf8(lines).expect("a sheet is text")
}

/// The first line of a text that cannot be packed.
pub fn first_bad(packed: Result<Vec<u8>, Vec<BadLine>>, text: &str) -> BadLine {
    packed.expect_err(text).into_iter().next().expect("a bad line is told")
}

/// The answers of a file, without the records' numbers and the last line.
pub fn answers(records: &[Vec<u8>]) -> Vec<String> {
    answers_by(records, Method::BySize, Fault::None)
}

pub fn answers_by(records: &[Vec<u8>], method: Method, fault: Fault) -> Vec<String> {
    let sheet = sheet_by(&records.concat(), method, fault);
    let mut lines: Vec<&str> = sheet.lines().collect();
    assert_eq!(lines.pop(), Some("end"));
    let answer = |line: &str| line.split_once(' ').expect("a number and a code").1.to_string();
    lines.into_iter().map(answer).collect()
}

/// The answer to the last record of a file.
pub fn last_answer(records: &[Vec<u8>]) -> String {
    answers(records).pop().expect("some record")
}
