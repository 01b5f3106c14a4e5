//! What the program crowdprint must print: the crowding sheet of the board that a
//! record file leaves.

use std::io::{self, Read, Write};

use super::slip::Slip;
use super::{Crowd, Track};
use crate::board::Board;
use crate::code::Code;
use crate::sheet::{Last, Next, Pieces, Stopped};

/// Has a board take the records of a file, as many as the sheet of records prints.
/// A refused one changes nothing. `watch` is told the number of each.
pub fn take_all(
    input: impl Read,
    board: &mut Board,
    mut watch: impl FnMut(usize),
) -> Result<Last, Stopped> {
    let mut pieces = Pieces::new(input);
    loop {
        let record = pieces.count() + 1;
        match pieces.read() {
            Ok(Next::Piece(piece)) => {
                board.take(piece);
                watch(record);
            }
            Ok(Next::Cut) => return Ok(Last::Cut),
            Ok(Next::End) => return Ok(Last::End),
            Err(error) => return Err(Stopped::Read { record, error }),
        }
    }
}

/// Prints the sheet of a board; before bounds there is none, but the code for that.
/// `last` is how the records of the board ended.
pub fn print(
    mut output: impl Write,
    crowd: Option<&Crowd>,
    last: Last,
    slip: Slip,
) -> io::Result<()> {
    match crowd {
        None => writeln!(output, "{}", Code::NoBounds.number())?,
        Some(crowd) => {
            write_tracks(&mut output, 'x', &crowd.vertical, slip)?;
            write_tracks(&mut output, 'y', &crowd.level, slip)?;
        }
    }
    writeln!(output, "{}", last.word())?;
    output.flush()
}

fn write_tracks(
    output: &mut impl Write,
    axis: char,
    tracks: &[Track],
    slip: Slip,
) -> io::Result<()> {
    for track in tracks {
        let (open, stretch) = slip.told(track);
        writeln!(output, "{axis} {} {open} {stretch}", track.at)?;
    }
    Ok(())
}
