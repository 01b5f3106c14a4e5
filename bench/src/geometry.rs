//! Points, directions and rectangles.
//!
//! Coordinates are `i32`: a wire's box may reach below zero.

/// A node of the unit grid.
#[derive(Clone, Copy, PartialEq, Eq, PartialOrd, Ord, Debug)]
pub struct Point {
    pub x: i32,
    pub y: i32,
}

impl Point {
    pub fn new(x: i32, y: i32) -> Point {
        Point { x, y }
    }

    /// The point `steps` unit steps away.
    pub fn moved(self, dir: Dir, steps: i32) -> Point {
        let (dx, dy) = dir.delta();
        Point::new(self.x + dx * steps, self.y + dy * steps)
    }

    /// |dx| + |dy|, the steps between two points of an empty board.
    pub fn steps_to(self, other: Point) -> u32 {
        self.x.abs_diff(other.x) + self.y.abs_diff(other.y)
    }
}

/// A unit step.
#[derive(Clone, Copy, PartialEq, Eq, Debug)]
pub enum Dir {
    E,
    N,
    W,
    S,
}

impl Dir {
    /// The order in which equally short wires are spelled.
    pub const ORDER: [Dir; 4] = [Dir::E, Dir::N, Dir::W, Dir::S];

    pub fn delta(self) -> (i32, i32) {
        match self {
            Dir::E => (1, 0),
            Dir::N => (0, 1),
            Dir::W => (-1, 0),
            Dir::S => (0, -1),
        }
    }

    pub fn axis(self) -> Axis {
        match self {
            Dir::E | Dir::W => Axis::X,
            Dir::N | Dir::S => Axis::Y,
        }
    }
}

/// What a step goes along.
#[derive(Clone, Copy, PartialEq, Eq, Debug)]
pub enum Axis {
    X,
    Y,
}

/// A rectangle with sides along the axes. Blocks are read as open ones (their
/// interior counts), the free rooms of the wide search as closed ones.
#[derive(Clone, Copy, PartialEq, Eq, Debug)]
pub struct Rect {
    pub x0: i32,
    pub y0: i32,
    pub x1: i32,
    pub y1: i32,
}

impl Rect {
    pub fn new(x0: i32, y0: i32, x1: i32, y1: i32) -> Rect {
        Rect { x0, y0, x1, y1 }
    }

    /// The closed rectangle (a segment, if the points share a coordinate) that
    /// two points span.
    pub fn spanned(a: Point, b: Point) -> Rect {
        Rect::new(a.x.min(b.x), a.y.min(b.y), a.x.max(b.x), a.y.max(b.y))
    }

    pub fn widened(self, by: i32) -> Rect {
        Rect::new(self.x0 - by, self.y0 - by, self.x1 + by, self.y1 + by)
    }

    /// Does the open rectangle hold the point?
    pub fn interior_holds(self, p: Point) -> bool {
        self.x0 < p.x && p.x < self.x1 && self.y0 < p.y && p.y < self.y1
    }

    /// Does the closed rectangle hold the point?
    pub fn holds(self, p: Point) -> bool {
        self.x0 <= p.x && p.x <= self.x1 && self.y0 <= p.y && p.y <= self.y1
    }

    /// Does it hold the unit cell with this lower left corner?
    pub fn holds_cell(self, cell: Point) -> bool {
        self.x0 <= cell.x && cell.x < self.x1 && self.y0 <= cell.y && cell.y < self.y1
    }

    /// Does the interior of this rectangle, which is not empty, meet `other`?
    ///
    /// `other` may be a rectangle of which the interior is meant, or the closed
    /// segment of a run. The answer is the same formula: an open interval meets
    /// an open or closed one, or a point, exactly when each begins before the
    /// other ends; equal coordinates only touch.
    pub fn interior_meets(self, other: Rect) -> bool {
        self.x0 < other.x1 && other.x0 < self.x1 && self.y0 < other.y1 && other.y0 < self.y1
    }

    /// Do the closed rectangles have a point in common?
    pub fn touches(self, other: Rect) -> bool {
        self.x0 <= other.x1 && other.x0 <= self.x1 && self.y0 <= other.y1 && other.y0 <= self.y1
    }

    /// What two closed rectangles that touch have in common.
    pub fn common(self, other: Rect) -> Rect {
        Rect::new(
            self.x0.max(other.x0),
            self.y0.max(other.y0),
            self.x1.min(other.x1),
            self.y1.min(other.y1),
        )
    }

    /// Does the closed rectangle hold all of another one?
    pub fn covers(self, other: Rect) -> bool {
        self.x0 <= other.x0 && other.x1 <= self.x1 && self.y0 <= other.y0 && other.y1 <= self.y1
    }

    /// The point of the closed rectangle nearest to `p`.
    pub fn nearest(self, p: Point) -> Point {
        Point::new(p.x.clamp(self.x0, self.x1), p.y.clamp(self.y0, self.y1))
    }
}
