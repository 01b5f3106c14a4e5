//! A file of records and drawn wires, in pieces: the letter `r` and the twelve
//! bytes of a record, or the letter `w`, a byte n and n 16-bit little-endian
//! numbers.

use crate::limits::{MAX_PIECES, RECORD_BYTES};

const RECORD: u8 = b'r';
const DRAWN: u8 = b'w';
/// The letter of a drawn wire and its n.
const DRAWN_HEAD: usize = 2;

/// More bytes than this are never looked at: the longest file, and one more.
pub const MOST_BYTES: usize = MAX_PIECES * (DRAWN_HEAD + 2 * u8::MAX as usize) + 1;

#[derive(Clone, PartialEq, Eq, Debug)]
pub enum Piece<'a> {
    /// The bytes of a record.
    Record(&'a [u8]),
    /// The numbers of a drawn wire.
    Drawn(Vec<u16>),
    /// Bytes that are no whole piece: it is cut short or has another letter.
    Bad(&'a [u8]),
}

impl Piece<'_> {
    /// Reads a piece as `split` gives it.
    pub fn read(bytes: &[u8]) -> Piece<'_> {
        match whole_length(bytes) {
            Some(length) if length == bytes.len() && bytes[0] == RECORD => {
                Piece::Record(&bytes[1..])
            }
            Some(length) if length == bytes.len() => {
                let pairs = bytes[DRAWN_HEAD..].chunks_exact(2);
                Piece::Drawn(pairs.map(|pair| u16::from_le_bytes([pair[0], pair[1]])).collect())
            }
            _ => Piece::Bad(bytes),
        }
    }
}

/// A file as its pieces. Where one is no whole piece, it is the last and holds
/// all that is left.
pub fn split(file: &[u8]) -> Vec<&[u8]> {
    let mut pieces = Vec::new();
    let mut left = file;
    while !left.is_empty() {
        let length = whole_length(left).unwrap_or(left.len());
        let (piece, rest) = left.split_at(length);
        pieces.push(piece);
        left = rest;
    }
    pieces
}

/// The length of the piece at the beginning, if a whole one is there.
fn whole_length(bytes: &[u8]) -> Option<usize> {
    let length = match *bytes.first()? {
        RECORD => 1 + RECORD_BYTES,
        DRAWN => DRAWN_HEAD + 2 * usize::from(*bytes.get(1)?),
        _ => return None,
    };
    (length <= bytes.len()).then_some(length)
}

/// Appends a record; one of under twelve bytes is a piece cut short.
pub fn put_record(file: &mut Vec<u8>, record: &[u8]) {
    file.push(RECORD);
    file.extend_from_slice(record);
}

/// Appends a drawn wire of at most 255 numbers.
pub fn put_drawn(file: &mut Vec<u8>, numbers: &[u16]) {
    let count = u8::try_from(numbers.len()).expect("a piece has at most 255 numbers");
    file.extend([DRAWN, count]);
    file.extend(numbers.iter().flat_map(|number| number.to_le_bytes()));
}
