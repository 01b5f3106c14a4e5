//! Keep-outs that share sides: rows of bricks, L and T shapes, heaps that grow
//! brick by brick; and what seams between them change. Asks go along seams and
//! have pins on them, wires run along the sides of bricks, and new bricks would
//! close seams over such wires.

mod shapes;

use super::maker::{Maker, Mix};
use crate::geometry::{Point, Rect};
use crate::item::Sort;
use crate::limits::{MAX_BLOCKS, MAX_CLEARANCE, MAX_SIDE};
use crate::record::{Pins, Record};
use shapes::{any_side, length, runs_along_bricks, stretch_along, thickened, Scale, LONGEST};

/// How often something is tried before it is left.
const TRIES: usize = 8;
/// The most units from a seam's end to a pin.
const FAR: i32 = 3;

/// More wires than this do not stay.
const MOST_WIRES: usize = 2;

/// A board of bricks, then records that aim at its seams.
pub fn bricks(maker: &mut Maker) {
    let (mix, scale) = begin(maker);
    for _ in 0..maker.rng.range(1, 3) {
        rows(maker, &mix, scale);
    }
    let most = if maker.rng.chance(15) { MAX_BLOCKS as i32 } else { 10 };
    for _ in 0..maker.rng.range(2, most) {
        put_brick_beside(maker, &mix, scale);
    }
    for _ in 0..maker.rng.range(30, 80) {
        aim(maker, &mix, scale);
    }
    maker.stir(&mix, 8);
}

fn begin(maker: &mut Maker) -> (Mix, Scale) {
    let scale = [1, 6, MAX_SIDE / 40][maker.rng.weighted(&[70, 15, 15])];
    let (w, h) = (scale * maker.rng.range(8, 36), scale * maker.rng.range(8, 36));
    let clearance = maker.rng.range(1, (2 * scale).min(MAX_CLEARANCE));
    maker.bounds(w, h, clearance);
    let ids = maker.rng.pick(&[60, 300, i32::from(u16::MAX)]);
    let reach = LONGEST * scale;
    (Mix { weights: [14, 14, 52, 10, 6, 4], ids, reach, on_sides: 70, across: 60 }, scale)
}

/// Rows of bricks, one upon the other, each begun a little further in or out, so
/// that joints meet the middle of bricks; some bricks are left out. Some begin at
/// the board's edge, and what would go past it ends there.
fn rows(maker: &mut Maker, mix: &Mix, scale: Scale) {
    let (frame, turned) = (maker.frame(), maker.rng.chance(50));
    let mut start = maker.any_node();
    if maker.rng.chance(30) {
        start = maker.rng.pick(&[Point::new(0, start.y), Point::new(start.x, 0)]);
    }
    let mut low = 0;
    for _ in 0..maker.rng.range(1, 4) {
        let thick = length(maker, scale);
        let mut from = maker.rng.pick(&[0, 0, -1, 1, 2]) * scale;
        for _ in 0..maker.rng.range(1, 4) {
            let to = from + length(maker, scale);
            let brick = brick_at(start, (from, to), (low, low + thick), turned).common(frame);
            if maker.rng.chance(88) && maker.has_room(brick) {
                put_brick(maker, mix, brick);
            }
            from = to;
        }
        low += thick;
    }
}

/// A brick with these lengths along its row and across, both from the row's start.
fn brick_at(start: Point, along: (i32, i32), across: (i32, i32), turned: bool) -> Rect {
    let (xs, ys) = if turned { (across, along) } else { (along, across) };
    Rect::new(start.x + xs.0, start.y + ys.0, start.x + xs.1, start.y + ys.1)
}

fn put_brick(maker: &mut Maker, mix: &Mix, rect: Rect) {
    let record = Record::Keepout { id: maker.id(mix), rect };
    maker.put(record);
}

/// A brick that shares a side, or a part of one, with a brick that stands.
fn put_brick_beside(maker: &mut Maker, mix: &Mix, scale: Scale) {
    let bricks: Vec<Rect> = maker.board.keepouts().collect();
    if bricks.is_empty() {
        return rows(maker, mix, scale);
    }
    for _ in 0..TRIES {
        let brick = maker.rng.pick(&bricks);
        let (side, outward) = any_side(maker, brick);
        let stretch = stretch_along(maker, side, scale);
        let beside = thickened(maker, stretch, outward, scale);
        if maker.has_room(beside) {
            return put_brick(maker, mix, beside);
        }
    }
}

/// Something that seams may change.
fn aim(maker: &mut Maker, mix: &Mix, scale: Scale) {
    take_out_a_wire_of_many(maker);
    match maker.rng.weighted(&[40, 9, 14, 9, 8, 8, 6]) {
        0 => {
            let pins = free_along_a_seam(maker, scale);
            ask_or_lay(maker, mix, pins, 8);
        }
        1 => on_a_seam(maker, mix),
        2 => {
            let pins = maker.pins(mix);
            ask_or_lay(maker, mix, pins, 20);
        }
        3 => lay_along_a_brick(maker, mix, scale),
        4 => close_over_a_wire(maker, mix, scale),
        5 => open_and_close(maker, mix, scale),
        _ => put_brick_beside(maker, mix, scale),
    }
}

/// Many wires would part the board, so that no way is left to any pin.
fn take_out_a_wire_of_many(maker: &mut Maker) {
    let wires = maker.board.items().filter(|(_, item)| item.sort() == Sort::Wire);
    let ids: Vec<u16> = wires.map(|(id, _)| id).collect();
    if ids.len() > MOST_WIRES {
        let id = maker.rng.pick(&ids);
        maker.put(Record::TakeOut { id });
    }
}

fn ask_or_lay(maker: &mut Maker, mix: &Mix, pins: Pins, laid: i32) {
    let id = maker.id(mix);
    let laid = maker.rng.chance(laid);
    maker.put(if laid { Record::Lay { id, pins } } else { Record::Ask { pins } });
}

fn any_seam(maker: &mut Maker) -> Option<Rect> {
    let seams: Vec<Rect> = maker.board.cover().seams().collect();
    (!seams.is_empty()).then(|| maker.rng.pick(&seams))
}

/// Pins at or beyond the two ends of a seam, mostly on nodes that are not blocked.
fn free_along_a_seam(maker: &mut Maker, scale: Scale) -> Pins {
    let mut pins = along_a_seam(maker, scale);
    for _ in 0..TRIES {
        let Pins { s, t } = pins;
        if s != t && !maker.board.node_blocked(s) && !maker.board.node_blocked(t) {
            break;
        }
        pins = along_a_seam(maker, scale);
    }
    pins
}

/// Pins at or beyond the two ends of a seam, mostly in line with it.
fn along_a_seam(maker: &mut Maker, scale: Scale) -> Pins {
    let frame = maker.frame();
    let Some(Rect { x0, y0, x1, y1 }) = any_seam(maker) else {
        return Pins { s: maker.any_node(), t: maker.any_node() };
    };
    let (upright, rng) = (x0 == x1, &mut maker.rng);
    let mut beyond = || {
        let aside = if rng.chance(75) { 0 } else { rng.range(-FAR, FAR) * scale };
        let far = rng.range(0, FAR) * scale;
        if upright {
            (aside, far)
        } else {
            (far, aside)
        }
    };
    let ((ax, ay), (bx, by)) = (beyond(), beyond());
    let s = frame.nearest(Point::new(x0 - ax, y0 - ay));
    let t = frame.nearest(Point::new(x1 + bx, y1 + by));
    if maker.rng.chance(50) {
        Pins { s, t }
    } else {
        Pins { s: t, t: s }
    }
}

/// A pin on a seam: anywhere on it, at an end, where many meet, or one unit off.
fn on_a_seam(maker: &mut Maker, mix: &Mix) {
    let Some(Rect { x0, y0, x1, y1 }) = any_seam(maker) else { return };
    let rng = &mut maker.rng;
    let inside = Point::new(rng.range(x0, x1), rng.range(y0, y1));
    let near = Point::new(inside.x + rng.range(-1, 1), inside.y + rng.range(-1, 1));
    let pin = rng.pick(&[inside, inside, near, Point::new(x0, y0), Point::new(x1, y1)]);
    let pin = maker.frame().nearest(pin);
    let other = maker.pins(mix).s;
    let first = maker.rng.chance(50);
    let pins = if first { Pins { s: pin, t: other } } else { Pins { s: other, t: pin } };
    ask_or_lay(maker, mix, pins, 15);
}

/// A wire along the side of a brick, or along a part of it.
fn lay_along_a_brick(maker: &mut Maker, mix: &Mix, scale: Scale) {
    let bricks: Vec<Rect> = maker.board.keepouts().collect();
    if bricks.is_empty() {
        return;
    }
    let frame = maker.frame();
    for _ in 0..TRIES {
        let brick = maker.rng.pick(&bricks);
        let (side, _) = any_side(maker, brick);
        let Rect { x0, y0, x1, y1 } = stretch_along(maker, side, scale);
        let (s, t) = (frame.nearest(Point::new(x0, y0)), frame.nearest(Point::new(x1, y1)));
        let free = maker.board.shortest(s, t);
        if free.is_some_and(|wire| wire.run_count() == 1) {
            let record = Record::Lay { id: maker.id(mix), pins: Pins { s, t } };
            return maker.put(record);
        }
    }
}

/// A brick on the other side of a wire that runs along a brick: over a part of the
/// wire, or only up to its end.
fn close_over_a_wire(maker: &mut Maker, mix: &Mix, scale: Scale) {
    let shared = runs_along_bricks(maker);
    if shared.is_empty() {
        return lay_along_a_brick(maker, mix, scale);
    }
    for _ in 0..TRIES {
        let (run, outward) = maker.rng.pick(&shared);
        let stretch = stretch_along(maker, run, scale);
        let brick = thickened(maker, stretch, outward, scale);
        if maker.has_room(brick) {
            return put_brick(maker, mix, brick);
        }
    }
}

/// The same ask before and after a brick goes, and when it is back.
fn open_and_close(maker: &mut Maker, mix: &Mix, scale: Scale) {
    let bricks: Vec<(u16, Rect)> =
        maker.board.items().filter_map(|(id, item)| Some((id, item.keepout()?))).collect();
    let pins = free_along_a_seam(maker, scale);
    let touching = |(_, brick): &&(u16, Rect)| {
        brick.widened(FAR * scale).touches(Rect::spanned(pins.s, pins.t))
    };
    let near: Vec<u16> = bricks.iter().filter(touching).map(|(id, _)| *id).collect();
    if near.is_empty() {
        return ask_or_lay(maker, mix, pins, 0);
    }
    let (id, ask) = (maker.rng.pick(&near), Record::Ask { pins });
    for record in [ask, Record::TakeOut { id }, ask, Record::Undo, ask] {
        maker.put(record);
    }
}
