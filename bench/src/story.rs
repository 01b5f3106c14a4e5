//! A file told record by record, beside the sheet that the proved program printed for it.
//!
//! The second router goes along: it knows what stands on the board. Where its line is not
//! the sheet's line, byte for byte, the telling ends, for then one of the two is wrong.

use std::rc::Rc;

use crate::board::Board;
use crate::limits::{MAX_RECORDS, RECORD_BYTES};
use crate::proved::Said;
use crate::sheet::{write_line, Last};
use crate::stand::Stand;
use crate::text::{joined, record_line, Line};
use crate::words::Answered;

/// A record file, and where its records came from.
pub struct Script {
    pub file: Vec<u8>,
    /// The number and the words of each record's line, if it was a text.
    lines: Option<Vec<(usize, String)>>,
}

impl Script {
    pub fn of_records(file: Vec<u8>) -> Script {
        Script { file, lines: None }
    }

    pub fn of_text(lines: &[Line]) -> Script {
        let told = lines.iter().map(|line| (line.number, line.words.join(" "))).collect();
        Script { file: joined(lines), lines: Some(told) }
    }

    pub fn is_text(&self) -> bool {
        self.lines.is_some()
    }

    /// How many records there are, more than a sheet shows perhaps.
    pub fn count(&self) -> usize {
        self.file.len().div_ceil(RECORD_BYTES)
    }

    fn place(&self, number: usize) -> String {
        match self.line(number) {
            Some((line, _)) => format!("line {line}"),
            None => format!("record {number}"),
        }
    }

    fn text(&self, number: usize, piece: &[u8]) -> String {
        self.line(number).map_or_else(|| record_line(piece), |(_, words)| words.clone())
    }

    fn line(&self, number: usize) -> Option<&(usize, String)> {
        self.lines.as_ref()?.get(number - 1)
    }
}

/// A record and its answer.
pub struct Step<'a> {
    /// From 1.
    pub number: usize,
    pub answered: Answered,
    script: &'a Script,
}

impl Step<'_> {
    /// Where it stands in the file.
    pub fn place(&self) -> String {
        self.script.place(self.number)
    }

    pub fn text(&self) -> String {
        self.script.text(self.number, &self.answered.piece)
    }

    /// The line for a reader.
    pub fn line(&self) -> String {
        format!("{}: {}: {}", self.place(), self.text(), self.answered.words())
    }
}

/// Tells the first `most` records of a file in turn. Without a sheet the answers are the
/// second router's own.
pub fn tell(
    script: &Script,
    sheet: Option<&str>,
    most: usize,
    mut see: impl FnMut(Step),
) -> Result<(), String> {
    let mut board = Board::default();
    let mut before = Rc::new(Stand::default());
    let mut lines = sheet.map(str::lines);
    let count = script.count().min(MAX_RECORDS);
    for (number, piece) in (1..=count.min(most)).zip(script.file.chunks(RECORD_BYTES)) {
        let own = own_line(&mut board, number, piece);
        if let Some(lines) = &mut lines {
            agree(script, number, &own, lines.next())?;
        }
        let said = Said::read(&own).ok_or_else(|| format!("no line of a sheet: {own}"))?;
        let after = Rc::new(Stand::of(&board));
        let answered = Answered { piece: piece.to_vec(), said, before, after: after.clone() };
        see(Step { number, answered, script });
        before = after;
    }
    match &mut lines {
        Some(lines) if most >= count => agree(script, count + 1, last(script).word(), lines.next()),
        _ => Ok(()),
    }
}

/// How the sheet of a file ends.
pub fn last(script: &Script) -> Last {
    match script.file.len() > MAX_RECORDS * RECORD_BYTES {
        true => Last::Cut,
        false => Last::End,
    }
}

fn own_line(board: &mut Board, number: usize, piece: &[u8]) -> String {
    let answer = board.take(piece);
    let mut line = Vec::new();
    // Memory can be written to.
    let _ = write_line(&mut line, number, &answer);
    String::from_utf8_lossy(&line).trim_end().to_string()
}

/// Fails if the sheet's line is not the second router's.
fn agree(script: &Script, number: usize, own: &str, proved: Option<&str>) -> Result<(), String> {
    if proved == Some(own) {
        return Ok(());
    }
    let place =
        if number > script.count() { "the last line".to_string() } else { script.place(number) };
    Err(format!(
        "the two routers differ at {place}, so nothing is said of this file\n  the sheet:         {}\n  \
         the second router: {own}\nIf the sheet is that of this file, one of the two is wrong: \
         'bench compare' shows it",
        proved.unwrap_or("no such line")
    ))
}
