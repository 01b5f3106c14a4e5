//! Faults that the tests plant on purpose, to show that they would be noticed.
//!
//! The program always answers with `Fault::None`. The others are the four ways
//! astray that document 01 names, wrong readings of document 02's orders 2 and 6, and
//! its order 3 left out; the last also tells `reopened` and `questions` where seams
//! matter.

use crate::blocked::Order;
use crate::cells::Cover;
use crate::geometry::{Dir, Rect};
use crate::item::{Frame, Sort};
use crate::record::{Mode, Pins};

#[derive(Clone, Copy, PartialEq, Eq, Debug, Default)]
pub enum Fault {
    #[default]
    None,
    /// A wire's box is trimmed to the board, which opens the board's edge.
    TrimmedBoxes,
    /// The wide search knows only the outermost sides of blocks that touch.
    OuterSides,
    /// Edges are blocked by interior nodes, so a block without one is open.
    InteriorNodes,
    /// A take-out clears the marks of its room, also where a neighbour's box
    /// covers the same room.
    ClearedMarks,
    /// Of several items that block a pin, the largest id is told.
    LargestId,
    /// Of a pin that items of both sorts block, the smallest id of all is told.
    AnySort,
    /// At each pin 18 is looked for before 11.
    WiresFirst,
    /// 11 is looked for at both pins before 18 is.
    CodeByCode,
    /// Pin 2 is looked at before pin 1.
    SecondPinFirst,
    /// t is taken for pin 1, and s for pin 2.
    PinsExchanged,
    /// Seams between keep-outs are left open, for wires and pins alike.
    OpenSeams,
    /// For kinds 8 and 9 the wire goes straight on whenever that leads nearer.
    GreedyStraight,
    /// For these kinds few runs come before a short length.
    TurnsFirst,
    /// They get the most runs in the place of the fewest.
    MostRuns,
    /// Of wires with the fewest runs the first in the order N, E, S, W is taken.
    OtherOrder,
    /// 13 counts the runs of kind 4's wire.
    RunsOfPlain,
    /// What lies after a kind 9, and what 14 counts, is kind 3's wire.
    LaidPlain,
    /// An accepted kind 9 is not kept as a change.
    UnkeptStraight,
    /// Kind 8 is answered as kind 4.
    AskedPlain,
}

impl Fault {
    /// The wrong readings of order 2. They change what is told of blocked pins
    /// and nothing else.
    pub const OF_PINS: [Fault; 6] = [
        Fault::LargestId,
        Fault::AnySort,
        Fault::WiresFirst,
        Fault::CodeByCode,
        Fault::SecondPinFirst,
        Fault::PinsExchanged,
    ];

    /// The wrong readings of order 6. They change nothing but kinds 8 and 9 and what
    /// comes of a 9. The unit search has all of them, the wide search those that no
    /// search is needed for, and the other order.
    pub const OF_TURNS: [Fault; 8] = [
        Fault::GreedyStraight,
        Fault::TurnsFirst,
        Fault::MostRuns,
        Fault::OtherOrder,
        Fault::RunsOfPlain,
        Fault::LaidPlain,
        Fault::UnkeptStraight,
        Fault::AskedPlain,
    ];

    /// The blocks of one item as this fault sees them.
    pub fn spoil_blocks(self, mut blocks: Vec<Rect>, frame: &Frame) -> Vec<Rect> {
        match self {
            Fault::TrimmedBoxes => blocks.iter_mut().for_each(|block| {
                *block = Rect::new(
                    block.x0.max(0),
                    block.y0.max(0),
                    block.x1.min(frame.w),
                    block.y1.min(frame.h),
                )
            }),
            Fault::InteriorNodes => blocks.retain(has_inner_node),
            _ => {}
        }
        blocks
    }

    /// What keep-outs cover, as this fault sees it. Without covered cells no seam
    /// is closed; the interiors of keep-outs are blocked all the same.
    pub fn spoil_cover(self, mut cover: Cover) -> Cover {
        match self {
            Fault::OpenSeams => cover.retain(|_| false),
            Fault::InteriorNodes => cover.retain(has_inner_node),
            _ => {}
        }
        cover
    }

    /// The rectangles whose sides the wide search cuts the board at.
    pub fn cutting(self, blocks: &[Rect]) -> Vec<Rect> {
        match self {
            Fault::OuterSides => clusters(blocks),
            _ => blocks.to_vec(),
        }
    }

    /// Another order in which the pins are looked at.
    pub fn order(self) -> Option<Order> {
        use Sort::{Keepout, Wire};
        match self {
            Fault::WiresFirst => Some([(1, Wire), (1, Keepout), (2, Wire), (2, Keepout)]),
            Fault::CodeByCode => Some([(1, Keepout), (2, Keepout), (1, Wire), (2, Wire)]),
            Fault::SecondPinFirst => Some([(2, Keepout), (2, Wire), (1, Keepout), (1, Wire)]),
            _ => None,
        }
    }

    /// The pins 1 and 2 of a record, as this fault sees them.
    pub fn pins(self, Pins { s, t }: Pins) -> Pins {
        match self {
            Fault::PinsExchanged => Pins { s: t, t: s },
            _ => Pins { s, t },
        }
    }

    /// The order of steps in which kinds 8 and 9 spell their wires.
    pub fn steps(self) -> [Dir; 4] {
        match self {
            Fault::OtherOrder => [Dir::N, Dir::E, Dir::S, Dir::W],
            _ => Dir::ORDER,
        }
    }

    /// The number of runs that kinds 8 and 9 choose.
    pub fn fewest(self, counts: impl Iterator<Item = u16>) -> Option<u16> {
        match self {
            Fault::MostRuns => counts.max(),
            _ => counts.min(),
        }
    }

    /// The mode of a kind 8.
    pub fn mode_of_ask(self) -> Mode {
        match self {
            Fault::AskedPlain => Mode::Plain,
            _ => Mode::Straight,
        }
    }
}

fn has_inner_node(block: &Rect) -> bool {
    block.x1 - block.x0 > 1 && block.y1 - block.y0 > 1
}

/// Each heap of touching blocks as the rectangle around it.
fn clusters(blocks: &[Rect]) -> Vec<Rect> {
    let mut heaps: Vec<Vec<Rect>> = Vec::new();
    for &block in blocks {
        let (touching, mut rest): (Vec<_>, Vec<_>) =
            heaps.into_iter().partition(|heap| heap.iter().any(|&other| block.touches(other)));
        let mut heap: Vec<Rect> = touching.into_iter().flatten().collect();
        heap.push(block);
        rest.push(heap);
        heaps = rest;
    }
    heaps.iter().map(|heap| around(heap)).collect()
}

fn around(heap: &[Rect]) -> Rect {
    heap.iter().fold(heap[0], |all, block| {
        Rect::new(
            all.x0.min(block.x0),
            all.y0.min(block.y0),
            all.x1.max(block.x1),
            all.y1.max(block.y1),
        )
    })
}
