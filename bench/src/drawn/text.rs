//! A piece file as readable text, a piece a line, and back.

use super::pieces::{put_drawn, put_record, split, Piece};
use crate::text::{hexadecimal_line, read, record_line, BadLine, Content, Line, DRAW, REST};

/// Bytes on a line of what is no piece.
const REST_BYTES: usize = 16;

/// Turns text into pieces. A record of under twelve bytes gives a piece that is
/// cut short.
pub fn pack(text: &[u8]) -> Result<Vec<u8>, Vec<BadLine>> {
    Ok(packed(&read(text)?))
}

/// The pieces of lines that were read.
pub fn packed(lines: &[Line]) -> Vec<u8> {
    let mut file = Vec::new();
    lines.iter().for_each(|line| put(&mut file, &line.content));
    file
}

fn put(file: &mut Vec<u8>, content: &Content) {
    match content {
        Content::Record(bytes) => put_record(file, bytes),
        Content::Draw(numbers) => put_drawn(file, numbers),
        Content::Rest(bytes) => file.extend(bytes),
    }
}

/// Turns any file into text that packs to the same bytes.
pub fn unpack(file: &[u8]) -> String {
    split(file).into_iter().map(|piece| lines_of(piece) + "\n").collect()
}

/// The line of a piece. Bytes that are no whole piece take as many as they need.
fn lines_of(piece: &[u8]) -> String {
    match Piece::read(piece) {
        Piece::Record(bytes) => record_line(bytes),
        Piece::Drawn(numbers) => draw_line(&numbers),
        Piece::Bad(bytes) => {
            let lines = bytes.chunks(REST_BYTES).map(|bytes| hexadecimal_line(REST, bytes));
            lines.collect::<Vec<String>>().join("\n")
        }
    }
}

fn draw_line(numbers: &[u16]) -> String {
    let numbers = numbers.iter().map(|number| format!(" {number}"));
    DRAW.to_string() + &numbers.collect::<String>()
}
