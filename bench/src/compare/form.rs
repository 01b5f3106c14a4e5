//! What differs between the forms of files that are compared.

use std::fmt;

use super::{Difference, Made};
use crate::draw::Scene;

/// A form of files, with the proved program that prints their sheets.
pub trait Form {
    /// The program's name.
    const PROGRAM: &'static str;
    /// What a file consists of, and the ending of such a file's name.
    const PIECES: &'static str;
    const ENDING: &'static str;
    /// The option that says how much is compared, and its value if not given.
    const OPTION: &'static str;
    const DEFAULT_COUNT: usize;

    /// What the lines of sheets come to.
    type Tally: Default + fmt::Display;

    /// The random files to compare, the first of them from the seed.
    fn files(count: usize, seed: u64) -> Vec<Made>;

    /// The second router's sheet of a file.
    fn print(file: &[u8]) -> Printed<Self::Tally>;

    /// Adds the tally of one more file.
    fn add(all: &mut Self::Tally, more: &Self::Tally);

    /// How many lines a tally has counted, for those who wait.
    fn told(tally: &Self::Tally) -> String;

    /// The file in pieces, whatever its bytes; they join to the file again.
    fn split(file: &[u8]) -> Vec<&[u8]>;

    /// The bytes of a record, if the piece is one.
    fn record(piece: &[u8]) -> Option<&[u8]>;

    /// The index of the piece that a line, counted from 1, answers; the last one, if
    /// all of them do together.
    fn piece_of_line(pieces: &[&[u8]], line: usize) -> Option<usize>;

    /// The file as readable text.
    fn text(file: &[u8]) -> String;

    /// The board before the piece that differs, with what is said of that.
    fn scene(before: &[&[u8]], piece: Option<&[u8]>, difference: &Difference) -> Scene;
}

/// A sheet of the second router, with what it counted.
pub struct Printed<T> {
    pub sheet: Vec<u8>,
    pub tally: T,
    /// The last word, if it is not `end`.
    pub other_end: Option<&'static str>,
}
