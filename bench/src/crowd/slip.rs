//! Faults that the tests plant in the crowding sheet, to show that they would be
//! noticed. The program always prints with `Slip::None`.

use super::{Crowd, Track};
use crate::board::Board;
use crate::geometry::{Point, Rect};

/// The edges that one word of bits has room for.
pub const WORD: usize = 64;

#[derive(Clone, Copy, PartialEq, Eq, Debug, Default)]
pub enum Slip {
    #[default]
    None,
    /// The pins of laid wires have tracks too.
    PinTracks,
    /// The sides of a run are those of its copper, not of its box.
    CopperSides,
    /// Sides off the board have tracks too.
    SidesOffBoard,
    /// Level tracks stand in the place of vertical ones, and these in theirs.
    AxesExchanged,
    /// An edge is open if both its ends are.
    EndsOnly,
    /// The stretch is the longest anywhere, not that from the low end.
    LongestStretch,
    /// The stretch is counted from the high end.
    HighEnd,
    /// Only as many edges are counted as one word of bits holds.
    FirstWord,
    /// All open edges are counted, but the stretch within one word only.
    StretchInWord,
}

impl Slip {
    /// Every slip there is.
    pub const ALL: [Slip; 9] = [
        Slip::PinTracks,
        Slip::CopperSides,
        Slip::SidesOffBoard,
        Slip::AxesExchanged,
        Slip::EndsOnly,
        Slip::LongestStretch,
        Slip::HighEnd,
        Slip::FirstWord,
        Slip::StretchInWord,
    ];

    /// The rectangles whose sides have tracks: the blocks, if nothing is planted.
    pub fn sides(self, board: &Board) -> Vec<Rect> {
        let runs = board.wires().flat_map(|wire| wire.runs());
        let pins = board.wires().flat_map(|wire| [wire.start(), wire.end()]);
        match self {
            Slip::CopperSides => board.keepouts().chain(runs).collect(),
            Slip::PinTracks => {
                board.blocks().into_iter().chain(pins.map(|pin| Rect::spanned(pin, pin))).collect()
            }
            _ => board.blocks(),
        }
    }

    pub fn keeps_off_board(self) -> bool {
        self == Slip::SidesOffBoard
    }

    /// Is an edge open?
    pub fn is_open(self, board: &mut Board, edge: Rect) -> bool {
        let Rect { x0, y0, x1, y1 } = edge;
        match self {
            Slip::EndsOnly => {
                let ends = [Point::new(x0, y0), Point::new(x1, y1)];
                ends.into_iter().all(|end| !board.node_blocked(end))
            }
            _ => board.open_along(edge),
        }
    }

    pub fn exchanged(self, crowd: Crowd) -> Crowd {
        match self {
            Slip::AxesExchanged => Crowd { vertical: crowd.level, level: crowd.vertical },
            _ => crowd,
        }
    }

    /// What the sheet gives of a track: its open edges and the stretch.
    pub fn told(self, track: &Track) -> (usize, usize) {
        let (open, stretch) = (track.open_edges(), track.stretch());
        let unbroken = |edges: &[bool]| edges.iter().take_while(|open| **open).count();
        match self {
            Slip::LongestStretch => {
                let from = |low: usize| unbroken(&track.open[low..]);
                (open, (0..track.open.len()).map(from).max().unwrap_or(0))
            }
            Slip::HighEnd => (open, track.open.iter().rev().take_while(|open| **open).count()),
            Slip::FirstWord => {
                let first = &track.open[..track.open.len().min(WORD)];
                (first.iter().filter(|open| **open).count(), stretch.min(WORD))
            }
            Slip::StretchInWord => (open, stretch.min(WORD)),
            _ => (open, stretch),
        }
    }
}
