//! What stands on a board, and what it blocks.

use crate::fault::Fault;
use crate::geometry::{Point, Rect};
use crate::wire::Wire;

/// The size and clearance that an accepted bounds record gives.
#[derive(Clone, Copy, PartialEq, Eq, Debug)]
pub struct Frame {
    pub w: i32,
    pub h: i32,
    pub clearance: i32,
}

impl Frame {
    /// The board as a closed rectangle.
    pub fn rect(&self) -> Rect {
        Rect::new(0, 0, self.w, self.h)
    }

    pub fn holds(&self, p: Point) -> bool {
        self.rect().holds(p)
    }

    pub fn nodes(&self) -> i64 {
        (i64::from(self.w) + 1) * (i64::from(self.h) + 1)
    }
}

/// An item without its id.
#[derive(Clone, PartialEq, Eq, Debug)]
pub enum Item {
    Keepout(Rect),
    Wire(Wire),
}

/// The two sorts of items.
#[derive(Clone, Copy, PartialEq, Eq, Debug)]
pub enum Sort {
    Keepout,
    Wire,
}

impl Item {
    pub fn sort(&self) -> Sort {
        match self {
            Item::Keepout(_) => Sort::Keepout,
            Item::Wire(_) => Sort::Wire,
        }
    }

    /// The rectangle of a keep-out.
    pub fn keepout(&self) -> Option<Rect> {
        match self {
            Item::Keepout(rect) => Some(*rect),
            Item::Wire(_) => None,
        }
    }

    /// The rectangle of a keep-out, or the runs of a wire as segments.
    pub fn parts(&self) -> Vec<Rect> {
        match self {
            Item::Keepout(rect) => vec![*rect],
            Item::Wire(wire) => wire.runs().collect(),
        }
    }

    pub fn block_count(&self) -> usize {
        match self {
            Item::Keepout(_) => 1,
            Item::Wire(wire) => wire.run_count(),
        }
    }

    /// The open rectangles that this item blocks: a keep-out's interior, or the
    /// box of each run. A box is not trimmed to the board.
    pub fn blocks(&self, frame: &Frame, fault: Fault) -> Vec<Rect> {
        let blocks = match self {
            Item::Keepout(rect) => vec![*rect],
            Item::Wire(wire) => wire.runs().map(|run| run.widened(frame.clearance)).collect(),
        };
        fault.spoil_blocks(blocks, frame)
    }
}
