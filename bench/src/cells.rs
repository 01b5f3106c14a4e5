//! Unit cells and the seams between keep-outs: document 02's order 3.
//!
//! A cell is a unit square of the grid, named by its lower left corner. A unit
//! edge is closed if the cells on both its sides lie in keep-outs, and a node if
//! all four cells round it do. Where they lie in one keep-out, that is the
//! keep-out's interior; where they lie in several, it is a seam.

use crate::fault::Fault;
use crate::geometry::{Point, Rect};
use crate::item::{Frame, Item};

/// The cells that keep-outs cover. Cells off the board lie in none.
#[derive(Clone, Default)]
pub struct Cover {
    keepouts: Vec<Rect>,
}

impl Cover {
    pub fn new(frame: &Frame, keepouts: impl Iterator<Item = Rect>) -> Cover {
        Cover { keepouts: keepouts.map(|keepout| keepout.common(frame.rect())).collect() }
    }

    /// What the keep-outs among the items cover, as a planted fault sees it.
    pub fn of<'a>(frame: &Frame, items: impl Iterator<Item = &'a Item>, fault: Fault) -> Cover {
        fault.spoil_cover(Cover::new(frame, items.filter_map(Item::keepout)))
    }

    /// Leaves only some of the keep-outs.
    pub fn retain(&mut self, keep: impl Fn(&Rect) -> bool) {
        self.keepouts.retain(keep);
    }

    pub fn keepouts(&self) -> &[Rect] {
        &self.keepouts
    }

    /// Does the cell lie in a keep-out?
    pub fn holds(&self, cell: Point) -> bool {
        self.keepouts.iter().any(|keepout| keepout.holds_cell(cell))
    }

    /// Is the unit edge that leads east from a node closed?
    pub fn closes_east(&self, Point { x, y }: Point) -> bool {
        self.holds(Point::new(x, y - 1)) && self.holds(Point::new(x, y))
    }

    /// Is the unit edge that leads north from a node closed?
    pub fn closes_north(&self, Point { x, y }: Point) -> bool {
        self.holds(Point::new(x - 1, y)) && self.holds(Point::new(x, y))
    }

    pub fn closes_node(&self, p: Point) -> bool {
        cells_round(p).into_iter().all(|cell| self.holds(cell))
    }

    /// Is some unit edge of a run closed? From one side of a keep-out to the next
    /// the edges have the same keep-outs beside them, so the first edge of each
    /// such stretch is enough.
    pub fn closes_part_of(&self, run: Rect) -> bool {
        let Rect { x0, y0, x1, y1 } = run;
        if y0 == y1 {
            let sides = self.keepouts.iter().flat_map(|keepout| [keepout.x0, keepout.x1]);
            stretches(x0, x1, sides).any(|x| self.closes_east(Point::new(x, y0)))
        } else {
            let sides = self.keepouts.iter().flat_map(|keepout| [keepout.y0, keepout.y1]);
            stretches(y0, y1, sides).any(|y| self.closes_north(Point::new(x0, y)))
        }
    }

    /// What two keep-outs have in common of their sides, as segments.
    pub fn seams(&self) -> impl Iterator<Item = Rect> + '_ {
        let pairs = self.keepouts.iter().enumerate().flat_map(|(index, keepout)| {
            self.keepouts[..index].iter().map(|other| (*keepout, *other))
        });
        pairs.filter(|(a, b)| a.touches(*b)).map(|(a, b)| a.common(b)).filter(is_segment)
    }
}

/// The four cells round a node.
pub fn cells_round(Point { x, y }: Point) -> [Point; 4] {
    [(x - 1, y - 1), (x, y - 1), (x - 1, y), (x, y)].map(|(x, y)| Point::new(x, y))
}

/// The coordinates from which the stretches of a run go, if it is cut at sides.
fn stretches(from: i32, to: i32, sides: impl Iterator<Item = i32>) -> impl Iterator<Item = i32> {
    std::iter::once(from).chain(sides.filter(move |&side| from < side && side < to))
}

/// Is it more than a point?
fn is_segment(rect: &Rect) -> bool {
    rect.x0 < rect.x1 || rect.y0 < rect.y1
}
