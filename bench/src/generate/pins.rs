//! Pins inside keep-outs and within the clearance of wires, where several of
//! them are in the way, and pins that just miss them.

use super::maker::{Maker, Mix};
use crate::fault::Fault;
use crate::geometry::{Point, Rect};
use crate::item::{Item, Sort};
use crate::limits::{MAX_CLEARANCE, MAX_SIDE};
use crate::record::{Pins, Record};

/// How often a keep-out is tried before it is left.
const TRIES: usize = 8;

/// A block and the item that it belongs to.
#[derive(Clone, Copy)]
struct Block {
    id: u16,
    sort: Sort,
    rect: Rect,
}

/// A board where keep-outs and boxes overlap, and pins aimed at them.
pub fn pins(maker: &mut Maker) {
    let mix = begin(maker);
    for _ in 0..maker.rng.range(2, 4) {
        lay_neighbours(maker, &mix);
    }
    for _ in 0..maker.rng.range(2, 5) {
        cover_a_box(maker, &mix);
    }
    for _ in 0..maker.rng.range(8, 16) {
        aim(maker, &mix);
    }
    maker.stir(&mix, 15);
}

fn begin(maker: &mut Maker) -> Mix {
    let large = maker.rng.chance(20);
    let (most, clearance) = if large {
        (MAX_SIDE, maker.rng.range(MAX_CLEARANCE / 4, MAX_CLEARANCE))
    } else {
        (40, maker.rng.range(2, 5))
    };
    let (w, h) = (maker.rng.range(most / 2, most), maker.rng.range(most / 2, most));
    maker.bounds(w, h, clearance);
    let ids = maker.rng.pick(&[30, 300, i32::from(u16::MAX)]);
    Mix { weights: [8, 14, 66, 6, 6, 0], ids, reach: 4 * clearance, on_sides: 40, across: 70 }
}

fn clearance(maker: &Maker) -> i32 {
    maker.board.frame().map_or(1, |frame| frame.clearance)
}

/// Two wires side by side, so near that their boxes overlap.
fn lay_neighbours(maker: &mut Maker, mix: &Mix) {
    let (c, frame) = (clearance(maker), maker.frame());
    let (first, length) = (maker.any_node(), maker.rng.range(c, mix.reach));
    let (apart, along_x) = (maker.rng.range(c, 2 * c - 1), maker.rng.chance(50));
    for aside in [0, apart] {
        let node = |along: i32| {
            let (dx, dy) = if along_x { (along, aside) } else { (aside, along) };
            frame.nearest(Point::new(first.x + dx, first.y + dy))
        };
        let pins = Pins { s: node(0), t: node(length) };
        let record = Record::Lay { id: maker.id(mix), pins };
        maker.put(record);
    }
}

/// A keep-out that reaches into the box of a wire, beside the wire itself.
fn cover_a_box(maker: &mut Maker, mix: &Mix) {
    for _ in 0..TRIES {
        let Some(p) = inside(maker, Sort::Wire) else { return };
        let most = clearance(maker);
        let mut reach = || maker.rng.range(1, most);
        let rect = Rect::new(p.x - reach(), p.y - reach(), p.x + reach(), p.y + reach());
        let rect = rect.common(maker.frame());
        if maker.has_room(rect) {
            let record = Record::Keepout { id: maker.id(mix), rect };
            return maker.put(record);
        }
    }
}

/// A lay or ask with a pin, or both, where something is in the way; now and then
/// again without one of the items there, and with it again.
fn aim(maker: &mut Maker, mix: &Mix) {
    let free = maker.pins(mix);
    let pins = match maker.rng.weighted(&[22, 42, 21, 15]) {
        0 => Pins { s: blocked(maker), t: free.t },
        1 => Pins { s: free.s, t: blocked(maker) },
        2 => Pins { s: blocked(maker), t: blocked(maker) },
        _ => Pins { s: rim(maker), t: rim(maker) },
    };
    let id = maker.id(mix);
    let laid = maker.rng.chance(30);
    maker.put(if laid { Record::Lay { id, pins } } else { Record::Ask { pins } });
    let at_pins = [pins.s, pins.t].map(|pin| maker.board.blockers(pin)).concat();
    if !at_pins.is_empty() && maker.rng.chance(40) {
        let id = maker.rng.pick(&at_pins).id;
        let ask = Record::Ask { pins };
        for record in [Record::TakeOut { id }, ask, Record::Undo, ask] {
            maker.put(record);
        }
    }
}

/// A node inside a keep-out or a wire's box; any node if there is none.
fn blocked(maker: &mut Maker) -> Point {
    let sort = maker.rng.pick(&[Sort::Keepout, Sort::Wire]);
    inside(maker, sort).unwrap_or_else(|| maker.any_node())
}

/// A node inside a block of that sort; where another item's block lies over it,
/// mostly inside both.
fn inside(maker: &mut Maker, sort: Sort) -> Option<Point> {
    let blocks = blocks(maker);
    let of_sort: Vec<Block> = blocks.iter().copied().filter(|block| block.sort == sort).collect();
    if of_sort.is_empty() {
        return None;
    }
    let Block { id, mut rect, .. } = maker.rng.pick(&of_sort);
    let over = |other: &Block| other.id != id && other.rect.interior_meets(rect);
    let others: Vec<Block> = blocks.into_iter().filter(over).collect();
    if !others.is_empty() && maker.rng.chance(75) {
        rect = rect.common(maker.rng.pick(&others).rect);
    }
    any_of(maker, rect.widened(-1).common(maker.frame()))
}

/// A node on the side of a block, which for a wire is exactly the clearance away.
fn rim(maker: &mut Maker) -> Point {
    let blocks = blocks(maker);
    if blocks.is_empty() {
        return maker.any_node();
    }
    let Rect { x0, y0, x1, y1 } = maker.rng.pick(&blocks).rect;
    let sides = [(x0, y0, x1, y0), (x0, y1, x1, y1), (x0, y0, x0, y1), (x1, y0, x1, y1)];
    let (x0, y0, x1, y1) = maker.rng.pick(&sides);
    let side = Rect::new(x0, y0, x1, y1).common(maker.frame());
    any_of(maker, side).unwrap_or_else(|| maker.any_node())
}

/// A node of a closed rectangle, if there is one.
fn any_of(maker: &mut Maker, rect: Rect) -> Option<Point> {
    let Rect { x0, y0, x1, y1 } = rect;
    let there = x0 <= x1 && y0 <= y1;
    there.then(|| Point::new(maker.rng.range(x0, x1), maker.rng.range(y0, y1)))
}

/// The blocks of all items.
fn blocks(maker: &Maker) -> Vec<Block> {
    let Some(frame) = maker.board.frame() else { return Vec::new() };
    let of_item = |(id, item): (u16, &Item)| {
        let sort = item.sort();
        item.blocks(frame, Fault::None).into_iter().map(move |rect| Block { id, sort, rect })
    };
    maker.board.items().flat_map(of_item).collect()
}
