//! Chooses between the two searches and keeps what they prepare.
//!
//! Nothing here is kept up to date bit by bit: when the items change, the
//! blocks and the searches' maps are made anew from the items that stand, at
//! the next search. So room that two blocks share cannot be freed by one.

use crate::cells::Cover;
use crate::fault::Fault;
use crate::geometry::{Point, Rect};
use crate::item::{Frame, Item, Sort};
use crate::limits::UNIT_SEARCH_NODES;
use crate::record::{Mode, Pins};
use crate::unit::UnitMap;
use crate::wide::WideMap;
use crate::wire::Wire;

/// Which search finds the wires.
#[derive(Clone, Copy, PartialEq, Eq, Debug, Default)]
pub enum Method {
    /// Unit steps on boards of up to `UNIT_SEARCH_NODES`, rooms above that.
    #[default]
    BySize,
    Unit,
    Wide,
}

/// The searches for one board.
pub struct Router {
    method: Method,
    fault: Fault,
    blocks: Vec<Rect>,
    /// What the keep-outs among the blocks cover.
    cover: Cover,
    blocks_stale: bool,
    unit: UnitMap,
    unit_stale: bool,
    wide: WideMap,
    wide_stale: bool,
}

impl Default for Router {
    fn default() -> Router {
        Router::new(Method::BySize, Fault::None)
    }
}

impl Router {
    /// A router with a method and a planted fault; the program itself uses
    /// `default`, which has none.
    pub fn new(method: Method, fault: Fault) -> Router {
        Router {
            method,
            fault,
            blocks: Vec::new(),
            cover: Cover::default(),
            blocks_stale: true,
            unit: UnitMap::default(),
            unit_stale: true,
            wide: WideMap::default(),
            wide_stale: true,
        }
    }

    /// A router that already knows its blocks and what the keep-outs among them
    /// cover, for a question without a board.
    pub fn over(blocks: Vec<Rect>, cover: Cover) -> Router {
        Router { blocks, cover, blocks_stale: false, ..Router::default() }
    }

    /// What a test has planted.
    pub fn fault(&self) -> Fault {
        self.fault
    }

    /// Drops everything prepared, for a new board.
    pub fn forget(&mut self) {
        self.blocks_stale = true;
        self.unit_stale = true;
        self.wide_stale = true;
    }

    pub fn note_added(&mut self, frame: &Frame, item: &Item) {
        self.note(frame, item, true);
    }

    pub fn note_removed(&mut self, frame: &Frame, item: &Item) {
        self.note(frame, item, false);
    }

    /// The fault that keeps marks does so for wires; a keep-out may open or close
    /// seams, so then all marks are made anew.
    fn note(&mut self, frame: &Frame, item: &Item, blocked: bool) {
        let keep_marks =
            self.fault == Fault::ClearedMarks && !self.unit_stale && item.sort() == Sort::Wire;
        self.forget();
        if keep_marks {
            for block in item.blocks(frame, self.fault) {
                self.unit.mark(block, blocked);
            }
            self.unit_stale = false;
        }
    }

    /// Lists the blocks of the items and the cover of the keep-outs, unless that
    /// was done since the last change. The questions below need it.
    pub fn prepare<'a>(&mut self, frame: &Frame, items: impl Iterator<Item = &'a Item> + Clone) {
        if self.blocks_stale {
            let fault = self.fault;
            self.cover = Cover::of(frame, items.clone(), fault);
            self.blocks = items.flat_map(|item| item.blocks(frame, fault)).collect();
            self.blocks_stale = false;
        }
    }

    /// Does the node lie in the interior of a block, or inside a seam?
    pub fn node_blocked(&self, p: Point) -> bool {
        self.blocks.iter().any(|block| block.interior_holds(p)) || self.cover.closes_node(p)
    }

    /// Is every unit edge of a segment on the board open? On larger boards the
    /// blocks are asked: one of them blocks a unit edge of the segment exactly if
    /// its interior meets the segment, since both have whole ends.
    pub fn open_along(&mut self, frame: &Frame, segment: Rect) -> bool {
        if self.by_units(frame) {
            return self.unit_map(frame).open_along(segment);
        }
        let meets = |block: &Rect| block.interior_meets(segment);
        !self.blocks.iter().any(meets) && !self.cover.closes_part_of(segment)
    }

    /// The answered wire between two different nodes that are not blocked.
    pub fn find(&mut self, frame: &Frame, pins: Pins, mode: Mode) -> Option<Wire> {
        match mode {
            Mode::Plain => self.shortest(frame, pins.s, pins.t),
            Mode::Straight => self.straightest(frame, pins.s, pins.t),
        }
    }

    /// The first of the shortest wires.
    pub fn shortest(&mut self, frame: &Frame, s: Point, t: Point) -> Option<Wire> {
        if self.by_units(frame) {
            return self.unit_map(frame).shortest(s, t);
        }
        self.wide_map(frame).shortest(s, t)
    }

    /// The first of the shortest wires with the fewest runs.
    pub fn straightest(&mut self, frame: &Frame, s: Point, t: Point) -> Option<Wire> {
        let fault = self.fault;
        if self.by_units(frame) {
            return self.unit_map(frame).straightest(s, t, fault);
        }
        self.wide_map(frame).straightest(s, t, fault)
    }

    fn by_units(&self, frame: &Frame) -> bool {
        match self.method {
            Method::BySize => frame.nodes() <= UNIT_SEARCH_NODES,
            Method::Unit => true,
            Method::Wide => false,
        }
    }

    fn unit_map(&mut self, frame: &Frame) -> &mut UnitMap {
        if self.unit_stale {
            self.unit.lay_out(frame, &self.blocks, &self.cover);
            self.unit_stale = false;
        }
        &mut self.unit
    }

    fn wide_map(&mut self, frame: &Frame) -> &mut WideMap {
        if self.wide_stale {
            self.wide.lay_out(frame, &self.blocks, &self.cover, self.fault);
            self.wide_stale = false;
        }
        &mut self.wide
    }
}
