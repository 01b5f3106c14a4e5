//! Where records aim: ids, nodes, rectangles and pins on the maker's board.

use super::maker::{Maker, Mix};
use crate::geometry::{Point, Rect};
use crate::item::Item;
use crate::limits::MAX_SIDE;
use crate::record::Pins;

/// How often an aimed choice is tried before any choice is taken.
const TRIES: usize = 12;

impl Maker {
    pub fn size(&self) -> (i32, i32) {
        self.board.frame().map_or((MAX_SIDE, MAX_SIDE), |frame| (frame.w, frame.h))
    }

    pub fn frame(&self) -> Rect {
        let (w, h) = self.size();
        Rect::new(0, 0, w, h)
    }

    pub fn any_node(&mut self) -> Point {
        let (w, h) = self.size();
        Point::new(self.rng.range(0, w), self.rng.range(0, h))
    }

    pub fn any_id(&mut self, mix: &Mix) -> u16 {
        self.rng.range(1, mix.ids) as u16
    }

    /// Mostly an id that is free.
    pub fn id(&mut self, mix: &Mix) -> u16 {
        for _ in 0..TRIES {
            let id = self.any_id(mix);
            if self.board.items().all(|(used, _)| used != id) {
                return id;
            }
        }
        self.any_id(mix)
    }

    pub fn used_id(&mut self) -> Option<u16> {
        let used: Vec<u16> = self.board.items().map(|(id, _)| id).collect();
        (!used.is_empty()).then(|| self.rng.pick(&used))
    }

    /// A rectangle, mostly one that meets no keep-out and no wire.
    pub fn rect(&mut self, mix: &Mix) -> Rect {
        let mut rect = self.any_rect(mix);
        for _ in 0..TRIES {
            if self.has_room(rect) {
                break;
            }
            rect = self.any_rect(mix);
        }
        rect
    }

    /// Is it a rectangle that meets no keep-out and no wire?
    pub fn has_room(&self, rect: Rect) -> bool {
        let proper = rect.x0 < rect.x1 && rect.y0 < rect.y1;
        proper && !self.board.items().any(|(_, item)| meets(rect, item))
    }

    fn any_rect(&mut self, mix: &Mix) -> Rect {
        let (w, h) = self.size();
        let (x0, x1) = self.span(mix, w, |block| [block.x0, block.x1]);
        let (y0, y1) = self.span(mix, h, |block| [block.y0, block.y1]);
        Rect::new(x0, y0, x1, y1)
    }

    /// Two coordinates of one axis, the first the smaller; one in eight apart
    /// by one unit only.
    fn span(&mut self, mix: &Mix, last: i32, sides: fn(&Rect) -> [i32; 2]) -> (i32, i32) {
        let from = self.coordinate(mix, last, sides);
        let mut to = from + self.rng.range(1, mix.reach);
        if self.rng.chance(mix.on_sides) {
            to = self.coordinate(mix, last, sides);
        }
        if self.rng.chance(12) {
            to = from + 1;
        }
        (from.min(to), to.max(from).min(last))
    }

    fn coordinate(&mut self, mix: &Mix, last: i32, sides: fn(&Rect) -> [i32; 2]) -> i32 {
        if !self.rng.chance(mix.on_sides) {
            return self.rng.range(0, last);
        }
        let mut standing = vec![0, last];
        standing.extend(self.board.blocks().iter().flat_map(sides));
        self.rng.pick(&standing).clamp(0, last)
    }

    /// Two pins, mostly on nodes that are not blocked.
    pub fn pins(&mut self, mix: &Mix) -> Pins {
        let mut pins = self.any_pins(mix);
        for _ in 0..TRIES {
            if pins.s != pins.t && !self.blocked(pins.s) && !self.blocked(pins.t) {
                break;
            }
            pins = self.any_pins(mix);
        }
        pins
    }

    fn any_pins(&mut self, mix: &Mix) -> Pins {
        let blocks = self.board.blocks();
        if !blocks.is_empty() && self.rng.chance(mix.across) {
            let block = self.rng.pick(&blocks);
            return self.pins_across(block, mix.reach);
        }
        Pins { s: self.aimed_node(mix), t: self.aimed_node(mix) }
    }

    pub fn aimed_node(&mut self, mix: &Mix) -> Point {
        let (w, h) = self.size();
        let x = self.coordinate(mix, w, |block| [block.x0, block.x1]);
        let y = self.coordinate(mix, h, |block| [block.y0, block.y1]);
        Point::new(x, y)
    }

    /// Pins on two sides of a block, straight across it, which as a rule
    /// forces a detour; one in five may lie along the block's rim.
    fn pins_across(&mut self, block: Rect, reach: i32) -> Pins {
        let frame = self.frame();
        let (before, after) = (self.rng.range(0, reach / 2), self.rng.range(0, reach / 2));
        let rim = i32::from(self.rng.chance(80));
        let (s, t) = if self.rng.chance(50) {
            let y = self.rng.range(block.y0 + rim, block.y1 - rim);
            (Point::new(block.x0 - before, y), Point::new(block.x1 + after, y))
        } else {
            let x = self.rng.range(block.x0 + rim, block.x1 - rim);
            (Point::new(x, block.y0 - before), Point::new(x, block.y1 + after))
        };
        let (s, t) = (frame.nearest(s), frame.nearest(t));
        if self.rng.chance(50) {
            Pins { s, t }
        } else {
            Pins { s: t, t: s }
        }
    }

    fn blocked(&mut self, p: Point) -> bool {
        self.board.node_blocked(p)
    }

    /// A small rectangle around a wire's corner, or around any node.
    pub fn around_a_corner(&mut self) -> Rect {
        let corners: Vec<Point> = self
            .board
            .items()
            .filter_map(|(_, item)| match item {
                Item::Keepout(_) => None,
                Item::Wire(wire) => Some(wire.corners()),
            })
            .flatten()
            .copied()
            .collect();
        let p = if corners.is_empty() { self.any_node() } else { self.rng.pick(&corners) };
        self.frame().common(Rect::new(p.x - 1, p.y - 1, p.x + 1, p.y + 1))
    }

    pub fn inside_a_block(&mut self) -> Point {
        let frame = self.frame();
        match self.board.blocks().first() {
            Some(block) => frame.nearest(Point::new(block.x0 + 1, block.y0 + 1)),
            None => self.any_node(),
        }
    }
}

fn meets(rect: Rect, item: &Item) -> bool {
    match item {
        Item::Keepout(other) => rect.interior_meets(*other),
        Item::Wire(wire) => wire.runs().any(|run| rect.interior_meets(run)),
    }
}
