//! Stairs: the wire that is first in the order E, N, W, S climbs them step by step,
//! in two runs each, while one that is as short goes past them in a few.

use super::maker::{Maker, Mix};
use crate::geometry::{Point, Rect};
use crate::limits::MAX_RUNS;
use crate::record::{Pins, Record};

/// Keep-outs in the room beside the stairs.
const BESIDE: Mix =
    Mix { weights: [100, 0, 0, 0, 0, 0], ids: 60, reach: 5, on_sides: 30, across: 0 };
/// Steps have smaller ids than this, unless one of those is taken.
const FIRST_ID: i32 = 100;

/// Stairs that rise from left to right, made with their foot at (0,0).
struct Stairs {
    steps: i32,
    pitch: i32,
    thick: i32,
    rise: i32,
    /// Are the steps wires? Else they are keep-outs.
    of_wires: bool,
    clearance: i32,
    /// The size of the board, and what is done to what stands on it: the axes
    /// exchanged, left and right, below and above.
    size: (i32, i32),
    turned: bool,
    flipped: (bool, bool),
}

/// A board with stairs, and wires from their foot to their head and back.
pub fn stairs(maker: &mut Maker) {
    let stairs = Stairs::random(maker);
    let end = stairs.turned(stairs.size.0, stairs.size.1);
    maker.bounds(end.x, end.y, stairs.clearance);
    for step in 1..=stairs.steps {
        maker.put(stairs.step(step));
    }
    let count = maker.rng.range(0, 5);
    maker.stir(&BESIDE, count);
    for _ in 0..6 {
        let pins = stairs.pins(maker);
        let (id, laid) = (maker.id(&BESIDE), maker.rng.chance(25));
        maker.put(if laid { Record::Lay { id, pins } } else { Record::Ask { pins } });
    }
}

impl Stairs {
    fn random(maker: &mut Maker) -> Stairs {
        let (rng, half) = (&mut maker.rng, MAX_RUNS as i32 / 2);
        let steps = if rng.chance(70) { rng.range(half - 2, half + 4) } else { rng.range(2, 40) };
        let (of_wires, clearance, rise) = (rng.chance(40), rng.range(1, 3), rng.range(1, 4));
        let pitch = 2 * clearance + rng.range(0, 3);
        let head = pitch * (steps + 1) + rng.range(0, 4);
        let high = rise * steps + clearance + rng.range(0, 4);
        Stairs {
            steps,
            pitch,
            thick: rng.range(1, pitch),
            rise,
            of_wires,
            clearance,
            size: (head, high),
            turned: rng.chance(50),
            flipped: (rng.chance(50), rng.chance(50)),
        }
    }

    fn step(&self, step: i32) -> Record {
        let (x, top, id) = (step * self.pitch, step * self.rise, (FIRST_ID + step) as u16);
        if self.of_wires {
            let pins = Pins { s: self.point(x, 0), t: self.point(x, top) };
            return Record::Lay { id, pins };
        }
        let rect = Rect::spanned(self.point(x, 0), self.point(x + self.thick, top));
        Record::Keepout { id, rect }
    }

    /// Pins at the foot and at the head, in either order.
    fn pins(&self, maker: &mut Maker) -> Pins {
        let (rng, (head, high)) = (&mut maker.rng, self.size);
        let foot = self.point(rng.range(0, self.pitch / 2), rng.range(0, self.rise));
        let head = self.point(rng.range(head - self.pitch / 2, head), rng.range(high - 2, high));
        if rng.chance(50) {
            Pins { s: foot, t: head }
        } else {
            Pins { s: head, t: foot }
        }
    }

    /// A point as it stands on the board.
    fn point(&self, x: i32, y: i32) -> Point {
        let (w, h) = self.size;
        let x = if self.flipped.0 { w - x } else { x };
        let y = if self.flipped.1 { h - y } else { y };
        self.turned(x, y)
    }

    fn turned(&self, x: i32, y: i32) -> Point {
        if self.turned {
            Point::new(y, x)
        } else {
            Point::new(x, y)
        }
    }
}
