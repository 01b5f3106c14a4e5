//! Boards at the limits: wires of about 24 runs, about 46 blocks; and `stairs`.

use super::maker::{Maker, Mix};
use super::stairs::stairs;
use crate::geometry::{Point, Rect};
use crate::limits::{MAX_BLOCKS, MAX_RUNS};
use crate::record::{Pins, Record};

const MIX: Mix =
    Mix { weights: [10, 20, 40, 15, 10, 5], ids: 60, reach: 6, on_sides: 30, across: 50 };

/// The id of the wire laid through a maze; the maze itself uses smaller ones.
const THROUGH: u16 = 60;

pub fn maze(maker: &mut Maker) {
    // A maze is made from left to right; in half of them x and y are swapped.
    let turned = maker.rng.chance(50);
    match maker.rng.range(0, 3) {
        0 => {
            let walls = turns(maker, MAX_BLOCKS as i32);
            comb(maker, turned, walls);
        }
        1 => courses(maker, turned),
        2 => stairs(maker),
        _ => posts(maker, turned),
    }
    maker.stir(&MIX, 15);
}

/// How often the way through a maze is turned aside. Each time costs two runs,
/// so it is mostly about half the runs that a wire may have.
fn turns(maker: &mut Maker, most: i32) -> i32 {
    let half = MAX_RUNS as i32 / 2;
    if maker.rng.chance(70) {
        maker.rng.range(half - 2, half + 1)
    } else {
        maker.rng.range(1, most)
    }
}

/// Wires as walls, from below and from above in turn. A wall's box reaches past
/// the edge, so each wall is passed at its one open end, in two more runs.
pub fn comb(maker: &mut Maker, turned: bool, walls: i32) {
    let clearance = maker.rng.range(1, 4);
    let pitch = 2 * clearance + maker.rng.range(0, 3);
    let gap = clearance + maker.rng.range(0, 2);
    let (long, high) = ((walls + 1) * pitch, 2 * gap + maker.rng.range(1, 9));
    bounds(maker, turned, long, high, clearance);
    for wall in 1..=walls {
        let x = wall * pitch;
        let (y0, y1) = if wall % 2 == 1 { (0, high - gap) } else { (gap, high) };
        let pins = pins(turned, Point::new(x, y0), Point::new(x, y1));
        maker.put(Record::Lay { id: wall as u16, pins });
    }
    through(maker, turned, (0, pitch - clearance), (walls * pitch + clearance, long), high);
}

/// Courses of two keep-outs each, the joint now here, now there: each course costs
/// two runs. Mostly joints and courses have a way of one unit between them; in some
/// mazes they abut, and only the board's edges lead past all of them.
fn courses(maker: &mut Maker, turned: bool) {
    let courses = turns(maker, MAX_BLOCKS as i32 / 2 + 1);
    let (shift, thick) = (maker.rng.range(2, 4), maker.rng.range(1, 3));
    let way = i32::from(maker.rng.chance(75));
    let pitch = thick + way;
    // The joints are far enough from the edges that no way round is shorter.
    let joint = (shift + way) * courses + 6;
    let (high, below) = (2 * joint + shift + way, maker.rng.range(0, 2));
    let long = courses * pitch + below + maker.rng.range(0, 2);
    bounds(maker, turned, long, high, 1);
    for course in 0..courses {
        let x = below + course * pitch;
        let y = joint + if course % 2 == 0 { 0 } else { shift };
        let lower = rect(turned, Rect::new(x, 0, x + thick, y));
        let upper = rect(turned, Rect::new(x, y + way, x + thick, high));
        maker.put(Record::Keepout { id: 2 * course as u16 + 1, rect: lower });
        maker.put(Record::Keepout { id: 2 * course as u16 + 2, rect: upper });
    }
    through(maker, turned, (0, below), (long - 1, long), high);
}

/// Rows of small keep-outs, one more than the board has room for.
fn posts(maker: &mut Maker, turned: bool) {
    let size = maker.rng.range(1, 3);
    let apart = size + maker.rng.range(0, 2);
    let long = 8 * apart;
    bounds(maker, turned, long, long, 1);
    for post in 0..=MAX_BLOCKS as i32 {
        let (x, y) = (post % 8 * apart, post / 8 * apart);
        let rect = rect(turned, Rect::new(x, y, x + size, y + size));
        maker.put(Record::Keepout { id: post as u16 + 1, rect });
    }
    through(maker, turned, (0, long), (0, long), long);
}

/// Asks, and one lay, from the left part of a maze to its right part.
fn through(maker: &mut Maker, turned: bool, left: (i32, i32), right: (i32, i32), high: i32) {
    for _ in 0..6 {
        let (s, t) = (somewhere(maker, left, high), somewhere(maker, right, high));
        let (s, t) = if maker.rng.chance(50) { (s, t) } else { (t, s) };
        let pins = pins(turned, s, t);
        let laid = maker.rng.chance(30);
        maker.put(if laid { Record::Lay { id: THROUGH, pins } } else { Record::Ask { pins } });
    }
}

fn somewhere(maker: &mut Maker, columns: (i32, i32), high: i32) -> Point {
    Point::new(maker.rng.range(columns.0, columns.1), maker.rng.range(0, high))
}

pub fn bounds(maker: &mut Maker, turned: bool, long: i32, high: i32, clearance: i32) {
    let (w, h) = if turned { (high, long) } else { (long, high) };
    maker.bounds(w, h, clearance);
}

pub fn rect(turned: bool, rect: Rect) -> Rect {
    let Rect { x0, y0, x1, y1 } = rect;
    if turned {
        Rect::new(y0, x0, y1, x1)
    } else {
        rect
    }
}

fn pins(turned: bool, s: Point, t: Point) -> Pins {
    let over = |p: Point| if turned { Point::new(p.y, p.x) } else { p };
    Pins { s: over(s), t: over(t) }
}
