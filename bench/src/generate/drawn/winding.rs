//! Boards whose shortest wire has over 24 runs, so that a lay is refused with
//! 13, while a longer wire of few runs goes round.

use super::strokes::{bumped, shortest, Corners};
use super::Drawer;
use crate::geometry::{Point, Rect};
use crate::limits::{MAX_BLOCKS, MAX_CLEARANCE, MAX_RUNS, MAX_SIDE};
use crate::record::{Pins, Record};

/// A fence of walls, made from left to right; where `turned`, x and y are
/// swapped. Odd walls stand below and leave what is above `mid + half`, even
/// ones above and leave what is below `mid - half`, so that the way along the
/// middle goes up and down at every wall: two runs each.
struct Fence {
    walls: i32,
    pitch: i32,
    clearance: i32,
    mid: i32,
    half: i32,
    /// Are the walls wires? Else they are keep-outs.
    of_wires: bool,
    turned: bool,
    /// Everything is so many times larger.
    scale: i32,
}

/// A board with such a fence, and wires drawn from its left to its right.
pub fn board(drawer: &mut Drawer) {
    let fence = Fence::random(drawer);
    let (w, h) = (fence.pitch * (fence.walls + 1), fence.high());
    let end = fence.point(w, h);
    drawer.put(Record::Bounds { w: end.x, h: end.y, clearance: fence.clearance * fence.scale });
    for wall in 1..=fence.walls {
        drawer.put(fence.wall(wall));
    }
    for _ in 0..drawer.maker.rng.range(10, 40) {
        let corners = fence.wire(drawer);
        drawer.draw(corners);
        if drawer.maker.rng.chance(15) {
            drawer.draw_some(2);
        }
    }
    // With a gap in it, most of these ways are shorter.
    let wall = drawer.maker.rng.range(1, fence.walls);
    drawer.put(Record::TakeOut { id: wall as u16 });
    for _ in 0..drawer.maker.rng.range(0, 6) {
        let corners = fence.wire(drawer);
        drawer.draw(corners);
    }
}

impl Fence {
    fn random(drawer: &mut Drawer) -> Fence {
        let rng = &mut drawer.maker.rng;
        let fewest = MAX_RUNS as i32 / 2 + 1;
        let most = if rng.chance(70) { fewest + 3 } else { MAX_BLOCKS as i32 };
        let (walls, half) = (rng.range(fewest, most), rng.range(1, 2));
        let clearance = rng.range(1, 3);
        let mut fence = Fence {
            walls,
            pitch: 2 * clearance + rng.range(0, 2),
            clearance,
            // Far enough from both edges that no way round is shorter.
            mid: half * walls + 4 + rng.range(0, 3),
            half,
            of_wires: rng.chance(50),
            turned: rng.chance(50),
            scale: 1,
        };
        if rng.chance(25) {
            let longest = fence.high().max(fence.pitch * (walls + 1));
            fence.scale = (MAX_SIDE / longest).min(MAX_CLEARANCE / clearance);
        }
        fence
    }

    fn high(&self) -> i32 {
        2 * self.mid + self.clearance
    }

    /// A wire's box reaches past the edge and shuts it, so walls of wires leave
    /// room above; a keep-out leaves the board's edge free.
    fn wall(&self, wall: i32) -> Record {
        let (x, id) = (wall * self.pitch, wall as u16);
        let below = wall % 2 == 1;
        let (low, high) = (self.mid - self.half, self.mid + self.half);
        if self.of_wires {
            let c = self.clearance;
            let (y0, y1) = if below { (0, high - c) } else { (low + c, self.high() - c) };
            let (s, t) = (self.point(x, y0), self.point(x, y1));
            return Record::Lay { id, pins: Pins { s, t } };
        }
        let (y0, y1) = if below { (0, high) } else { (low, self.high()) };
        let (a, b) = (self.point(x, y0), self.point(x + 1, y1));
        Record::Keepout { id, rect: Rect::spanned(a, b) }
    }

    /// A wire from left to right or back: the way round, that with bumps, or as
    /// much of the shortest as can be drawn.
    fn wire(&self, drawer: &mut Drawer) -> Corners {
        let rng = &mut drawer.maker.rng;
        let (c, last) = (self.clearance, self.walls * self.pitch);
        let mut near_mid = || self.mid + rng.range(-self.half - 1, self.half + 1);
        let (sy, ty) = (near_mid(), near_mid());
        let (sx, tx) = (rng.range(0, self.pitch - c), rng.range(last + c, last + self.pitch));
        let edge = if self.of_wires || rng.chance(50) { self.high() } else { 0 };
        let mut corners =
            [(sx, sy), (sx, edge), (tx, edge), (tx, ty)].map(|(x, y)| self.point(x, y));
        if rng.chance(50) {
            corners.reverse();
        }
        match drawer.maker.rng.weighted(&[45, 35, 20]) {
            0 => corners.to_vec(),
            1 => bumped(&mut drawer.maker, corners.to_vec()),
            _ => shortest(&mut drawer.maker, corners[0], corners[3])
                .unwrap_or_else(|| corners.to_vec()),
        }
    }

    /// A point of the board as it stands in the file.
    fn point(&self, x: i32, y: i32) -> Point {
        let (x, y) = if self.turned { (y, x) } else { (x, y) };
        Point::new(x * self.scale, y * self.scale)
    }
}
