//! The crowding sheet of a board: which edges of its tracks are open. Document 02's
//! order 5 asks for it.
//!
//! Tracks are the board's two sides and each block's side on the board, on either
//! axis. A vertical track has an edge between each two neighbouring level tracks,
//! a level track one between each two neighbouring vertical tracks. An edge is open
//! if every unit edge of it is. The board's router says so: unit edge by unit edge
//! where the board is small enough, else by blocks (`Router::open_along`). Nothing
//! is kept beside the board; a sheet is made afresh from the items that stand.
//!
//! `sheet` prints it for a record file, `tally` counts what is in it. `slip` is
//! there for the tests.

pub mod sheet;
pub mod slip;
pub mod tally;

use std::collections::BTreeSet;

use crate::board::Board;
use crate::geometry::Rect;
use slip::Slip;

/// A track and its edges.
#[derive(Clone, PartialEq, Eq, Debug)]
pub struct Track {
    /// The x of a vertical track, the y of a level one.
    pub at: i32,
    /// Is it open, for each edge from the low end on?
    pub open: Vec<bool>,
}

impl Track {
    pub fn open_edges(&self) -> usize {
        self.open.iter().filter(|open| **open).count()
    }

    /// How many edges are open from the low end up to the first that is not.
    pub fn stretch(&self) -> usize {
        self.open.iter().take_while(|open| **open).count()
    }
}

/// The tracks of a board, rising.
#[derive(Clone, PartialEq, Eq, Debug)]
pub struct Crowd {
    pub vertical: Vec<Track>,
    pub level: Vec<Track>,
}

impl Crowd {
    /// None before bounds.
    pub fn of(board: &mut Board, slip: Slip) -> Option<Crowd> {
        let frame = *board.frame()?;
        let sides = slip.sides(board);
        let xs = coordinates(frame.w, sides.iter().flat_map(|side| [side.x0, side.x1]), slip);
        let ys = coordinates(frame.h, sides.iter().flat_map(|side| [side.y0, side.y1]), slip);
        let mut open = |x0, y0, x1, y1| slip.is_open(board, Rect::new(x0, y0, x1, y1));
        let vertical = tracks(&xs, &ys, |x, low, high| open(x, low, x, high));
        let level = tracks(&ys, &xs, |y, low, high| open(low, y, high, y));
        Some(slip.exchanged(Crowd { vertical, level }))
    }

    /// All tracks, vertical ones first.
    pub fn tracks(&self) -> impl Iterator<Item = &Track> {
        self.vertical.iter().chain(&self.level)
    }
}

/// The coordinates of an axis that have a track, each once, rising.
fn coordinates(last: i32, sides: impl Iterator<Item = i32>, slip: Slip) -> Vec<i32> {
    let on_board = |side: &i32| slip.keeps_off_board() || (0..=last).contains(side);
    let once: BTreeSet<i32> = sides.filter(on_board).chain([0, last]).collect();
    once.into_iter().collect()
}

/// The tracks at these coordinates, each with an edge from one track across it to
/// the next.
fn tracks(at: &[i32], across: &[i32], mut open: impl FnMut(i32, i32, i32) -> bool) -> Vec<Track> {
    let mut track = |&at: &i32| Track {
        at,
        open: across.windows(2).map(|ends| open(at, ends[0], ends[1])).collect(),
    };
    at.iter().map(&mut track).collect()
}
