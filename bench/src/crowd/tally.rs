//! Counts what crowding sheets come to.

use std::fmt;
use std::io::{Read, Write};

use super::sheet::{print, take_all};
use super::slip::{Slip, WORD};
use super::{Crowd, Track};
use crate::board::Board;
use crate::limits::MAX_SIDE;
use crate::reopened::Reopened;
use crate::sheet::{Last, Stopped};

#[derive(Clone, Default)]
pub struct Tally {
    pub sheets: usize,
    /// Files that have no bounds, so that there is no sheet but a code.
    pub before_bounds: usize,
    pub tracks: usize,
    /// Tracks without an open edge, and those with nothing else.
    pub shut_tracks: usize,
    pub clear_tracks: usize,
    pub edges: usize,
    pub open_edges: usize,
    /// Sheets that would be others if seams were left open.
    pub changed_by_seams: usize,
    /// Sheets in which a track has more edges than a word has bits, tracks with an
    /// open edge past these, and tracks whose stretch goes past them.
    pub beyond_word: usize,
    pub open_beyond: usize,
    pub stretch_beyond: usize,
    /// Sheets of boards of the largest size.
    pub widest: usize,
}

impl Tally {
    /// Counts the sheet of a file while it is printed.
    pub fn printing(input: impl Read, output: impl Write) -> Result<(Tally, Last), Stopped> {
        let mut board = Board::default();
        let last = take_all(input, &mut board, |_| {})?;
        let crowd = Crowd::of(&mut board, Slip::None);
        print(output, crowd.as_ref(), last, Slip::None)?;
        let mut tally = Tally::default();
        match &crowd {
            None => tally.before_bounds += 1,
            Some(crowd) => tally.count(crowd, &board),
        }
        Ok((tally, last))
    }

    fn count(&mut self, crowd: &Crowd, board: &Board) {
        self.sheets += 1;
        crowd.tracks().for_each(|track| self.count_track(track));
        let beyond = crowd.tracks().any(|track| track.open.len() > WORD);
        self.beyond_word += usize::from(beyond);
        let otherwise = Reopened::default().crowds_otherwise(crowd, board);
        self.changed_by_seams += usize::from(otherwise);
        let widest = board.frame().is_some_and(|f| f.w == MAX_SIDE && f.h == MAX_SIDE);
        self.widest += usize::from(widest);
    }

    fn count_track(&mut self, track: &Track) {
        let (edges, open) = (track.open.len(), track.open_edges());
        self.tracks += 1;
        self.shut_tracks += usize::from(open == 0);
        self.clear_tracks += usize::from(open == edges);
        self.edges += edges;
        self.open_edges += open;
        let open_beyond = track.open.iter().skip(WORD).any(|open| *open);
        self.open_beyond += usize::from(open_beyond);
        self.stretch_beyond += usize::from(track.stretch() > WORD);
    }

    /// Adds the counts of another file.
    pub fn add(&mut self, other: &Tally) {
        self.sheets += other.sheets;
        self.before_bounds += other.before_bounds;
        self.tracks += other.tracks;
        self.shut_tracks += other.shut_tracks;
        self.clear_tracks += other.clear_tracks;
        self.edges += other.edges;
        self.open_edges += other.open_edges;
        self.changed_by_seams += other.changed_by_seams;
        self.beyond_word += other.beyond_word;
        self.open_beyond += other.open_beyond;
        self.stretch_beyond += other.stretch_beyond;
        self.widest += other.widest;
    }
}

impl fmt::Display for Tally {
    fn fmt(&self, f: &mut fmt::Formatter<'_>) -> fmt::Result {
        writeln!(f, "sheets {}, files before bounds {}", self.sheets, self.before_bounds)?;
        writeln!(
            f,
            "tracks {}, wide open {}, shut {}",
            self.tracks, self.clear_tracks, self.shut_tracks
        )?;
        writeln!(f, "edges {}, open {}", self.edges, self.open_edges)?;
        writeln!(f, "sheets that seams change: {}", self.changed_by_seams)?;
        writeln!(f, "sheets with over {WORD} edges to a track: {}", self.beyond_word)?;
        writeln!(
            f,
            "tracks with an open edge past the {WORD}th: {}, with a stretch over {WORD}: {}",
            self.open_beyond, self.stretch_beyond
        )?;
        writeln!(f, "sheets on {MAX_SIDE} x {MAX_SIDE}: {}", self.widest)
    }
}
