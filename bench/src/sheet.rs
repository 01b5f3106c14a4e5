//! The sheet: records from standard input, one line each to standard output.

use std::io::{self, Read, Write};

use crate::board::{Answer, Board};
use crate::code::Blocked;
use crate::limits::{MAX_RECORDS, RECORD_BYTES};
use crate::record::RecordBytes;

/// What comes next in a file.
pub enum Next<'a> {
    /// A record, or a last piece of under twelve bytes.
    Piece(&'a [u8]),
    /// The most records were read and input is left.
    Cut,
    End,
}

/// A file as its pieces of twelve bytes, read one at a time.
pub struct Pieces<R> {
    input: R,
    piece: RecordBytes,
    count: usize,
}

impl<R: Read> Pieces<R> {
    pub fn new(input: R) -> Pieces<R> {
        Pieces { input, piece: [0; RECORD_BYTES], count: 0 }
    }

    /// How many pieces came so far.
    pub fn count(&self) -> usize {
        self.count
    }

    /// The next piece. A failed read is an error, never the end.
    pub fn read(&mut self) -> io::Result<Next<'_>> {
        let full = self.count == MAX_RECORDS;
        let length = self.fill(if full { 1 } else { RECORD_BYTES })?;
        match (length, full) {
            (0, _) => Ok(Next::End),
            (_, true) => Ok(Next::Cut),
            (_, false) => {
                self.count += 1;
                Ok(Next::Piece(&self.piece[..length]))
            }
        }
    }

    /// Reads `wanted` bytes, or fewer at the end of the input.
    fn fill(&mut self, wanted: usize) -> io::Result<usize> {
        let mut length = 0;
        while length < wanted {
            match self.input.read(&mut self.piece[length..wanted]) {
                Ok(0) => break,
                Ok(more) => length += more,
                Err(error) if error.kind() == io::ErrorKind::Interrupted => {}
                Err(error) => return Err(error),
            }
        }
        Ok(length)
    }
}

/// Why a sheet is not whole.
#[derive(Debug)]
pub enum Stopped {
    Read { record: usize, error: io::Error },
    Write(io::Error),
}

impl From<io::Error> for Stopped {
    fn from(error: io::Error) -> Stopped {
        Stopped::Write(error)
    }
}

/// A record that has just been answered, and the board after it.
pub struct Seen<'a> {
    pub number: usize,
    pub piece: &'a [u8],
    pub answer: &'a Answer,
    pub board: &'a Board,
}

/// What the last line of a sheet says.
#[derive(Clone, Copy, PartialEq, Eq, Debug)]
pub enum Last {
    End,
    Cut,
}

impl Last {
    pub fn word(self) -> &'static str {
        match self {
            Last::End => "end",
            Last::Cut => "cut",
        }
    }
}

/// Prints the sheet of a file. `watch` is shown each record with its answer.
pub fn print(
    input: impl Read,
    mut output: impl Write,
    mut board: Board,
    mut watch: impl FnMut(&Seen),
) -> Result<Last, Stopped> {
    let mut pieces = Pieces::new(input);
    let last = loop {
        let number = pieces.count() + 1;
        match pieces.read() {
            Ok(Next::Piece(piece)) => {
                let answer = board.take(piece);
                write_line(&mut output, number, &answer)?;
                watch(&Seen { number, piece, answer: &answer, board: &board });
            }
            Ok(Next::Cut) => break Last::Cut,
            Ok(Next::End) => break Last::End,
            Err(error) => {
                output.flush()?;
                return Err(Stopped::Read { record: number, error });
            }
        }
    };
    writeln!(output, "{}", last.word())?;
    output.flush()?;
    Ok(last)
}

/// The line of a record, with its end.
pub fn write_line(output: &mut impl Write, number: usize, answer: &Answer) -> io::Result<()> {
    write!(output, "{number} {}", answer.code.number())?;
    if let Some(Blocked { pin, id }) = answer.code.blocked() {
        write!(output, " {pin} {id}")?;
    }
    if let Some(wire) = &answer.wire {
        write!(output, " {} {}", wire.length(), wire.detour())?;
        for corner in wire.corners() {
            write!(output, " {}:{}", corner.x, corner.y)?;
        }
    }
    writeln!(output)
}
