//! Piece files and what is said of the wires in them.

use bench::board::Board;
use bench::drawn;
use bench::drawn::slip::Slip;
use bench::fault::Fault;
use bench::route::{Method, Router};

/// A drawn wire as a piece, put together by hand.
pub fn wire(numbers: &[u16]) -> Vec<u8> {
    let mut bytes = vec![b'w', numbers.len() as u8];
    for number in numbers {
        bytes.push((number & 255) as u8);
        bytes.push((number >> 8) as u8);
    }
    bytes
}

/// A record as a piece.
pub fn fed(record: Vec<u8>) -> Vec<u8> {
    [b"r".to_vec(), record].concat()
}

/// The lines for a piece file, as the program prints them.
pub fn sheet(file: &[u8]) -> String {
    sheet_by(file, Method::BySize, Fault::None, Slip::None)
}

/// The lines by one of the searches, perhaps with a planted fault or slip.
pub fn sheet_by(file: &[u8], method: Method, fault: Fault, slip: Slip) -> String {
    let mut lines = Vec::new();
    let board = Board::with_router(Router::new(method, fault));
    drawn::sheet::print(file, &mut lines, board, slip, |_| {}).expect("memory can be written");
    String::from_utf8(lines).expect("a sheet is text")
}

/// What is said of the wires, one after the other, on the board of the records.
pub fn verdicts(records: &[Vec<u8>], wires: &[&[u16]]) -> Vec<String> {
    let mut pieces: Vec<Vec<u8>> = records.iter().cloned().map(fed).collect();
    pieces.extend(wires.iter().map(|numbers| wire(numbers)));
    let sheet = sheet(&pieces.concat());
    let mut lines: Vec<&str> = sheet.lines().collect();
    assert_eq!(lines.pop(), Some("end"));
    let said = |(index, line): (usize, &str)| {
        let (number, said) = line.split_once(' ').expect("a number and a code");
        assert_eq!(number, (index + 1).to_string());
        said.to_string()
    };
    lines.into_iter().enumerate().map(said).collect()
}

pub fn verdict(records: &[Vec<u8>], numbers: &[u16]) -> String {
    verdicts(records, &[numbers]).pop().expect("a wire")
}
