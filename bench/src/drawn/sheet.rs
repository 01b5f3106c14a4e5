//! What the program checkprint must print: a line for each drawn wire of a
//! piece file.

use std::io::{self, Write};

use super::pieces::{split, Piece};
use super::slip::Slip;
use super::{judge, Finding, Verdict};
use crate::board::Board;
use crate::limits::MAX_PIECES;

/// What the last line says.
#[derive(Clone, Copy, PartialEq, Eq, Debug)]
pub enum Last {
    End,
    /// A piece was cut short or had another letter.
    Bad,
    /// The most pieces were read and input is left.
    Cut,
}

impl Last {
    pub fn word(self) -> &'static str {
        match self {
            Last::End => "end",
            Last::Bad => "bad",
            Last::Cut => "cut",
        }
    }
}

/// A drawn wire that has just been judged, and the board that it was judged on.
pub struct Seen<'a> {
    /// From 1, the wires alone counted.
    pub number: usize,
    pub numbers: &'a [u16],
    pub verdict: &'a Verdict,
    pub board: &'a Board,
}

/// Prints the lines of a piece file. `watch` is shown each wire.
pub fn print(
    file: &[u8],
    mut output: impl Write,
    mut board: Board,
    slip: Slip,
    mut watch: impl FnMut(&Seen),
) -> io::Result<Last> {
    let pieces = split(file);
    let mut last = if pieces.len() > MAX_PIECES { Last::Cut } else { Last::End };
    let mut number = 0;
    for bytes in pieces.into_iter().take(MAX_PIECES) {
        match Piece::read(bytes) {
            // A record's answer is not printed, a refusal neither.
            Piece::Record(record) => {
                board.take(record);
            }
            Piece::Drawn(numbers) => {
                number += 1;
                let verdict = judge(&mut board, &numbers, slip);
                write_line(&mut output, number, &verdict)?;
                watch(&Seen { number, numbers: &numbers, verdict: &verdict, board: &board });
            }
            Piece::Bad(_) => last = Last::Bad,
        }
    }
    writeln!(output, "{}", last.word())?;
    output.flush()?;
    Ok(last)
}

fn write_line(output: &mut impl Write, number: usize, verdict: &Verdict) -> io::Result<()> {
    let Verdict { finding, run, excess, .. } = verdict;
    write!(output, "{number} {}", finding.number())?;
    match finding {
        Finding::Legal => writeln!(output, " {excess}"),
        finding if finding.names_run() => writeln!(output, " {run}"),
        _ => writeln!(output),
    }
}
