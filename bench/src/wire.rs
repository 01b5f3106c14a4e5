//! A wire: its corners, and how one is spelled step by step.

use crate::geometry::{Dir, Point, Rect};

/// A wire as its corners: s, each turn, t.
#[derive(Clone, PartialEq, Eq, Debug)]
pub struct Wire {
    corners: Vec<Point>,
}

impl Wire {
    /// A wire drawn by hand, from its numbers x, y, x, y, ...
    pub fn drawn(numbers: &[u16]) -> Wire {
        let corner = |pair: &[u16]| Point::new(i32::from(pair[0]), i32::from(pair[1]));
        Wire { corners: numbers.chunks_exact(2).map(corner).collect() }
    }

    /// A wire through these corners, of which there must be two.
    pub fn through(corners: Vec<Point>) -> Option<Wire> {
        (corners.len() >= 2).then_some(Wire { corners })
    }

    pub fn corners(&self) -> &[Point] {
        &self.corners
    }

    pub fn start(&self) -> Point {
        self.corners[0]
    }

    pub fn end(&self) -> Point {
        self.corners[self.corners.len() - 1]
    }

    /// The straight runs, as segments.
    pub fn runs(&self) -> impl Iterator<Item = Rect> + '_ {
        self.corners.windows(2).map(|ends| Rect::spanned(ends[0], ends[1]))
    }

    pub fn run_count(&self) -> usize {
        self.corners.len() - 1
    }

    /// The number of unit steps.
    pub fn length(&self) -> u32 {
        self.corners.windows(2).map(|ends| ends[0].steps_to(ends[1])).sum()
    }

    /// The number of steps that go away from the end. Every step goes either
    /// away from it or towards it, hence length = |dx| + |dy| + 2 x detour.
    pub fn detour(&self) -> u32 {
        (self.length() - self.start().steps_to(self.end())) / 2
    }
}

/// A wire while it is spelled from its first pin.
pub struct Spelling {
    corners: Vec<Point>,
    at: Point,
    heading: Option<Dir>,
}

impl Spelling {
    pub fn from(start: Point) -> Spelling {
        Spelling { corners: vec![start], at: start, heading: None }
    }

    pub fn at(&self) -> Point {
        self.at
    }

    /// Goes on by `steps` unit steps; a new direction leaves a corner behind.
    pub fn go(&mut self, dir: Dir, steps: i32) {
        if self.heading.is_some_and(|heading| heading != dir) {
            self.corners.push(self.at);
        }
        self.heading = Some(dir);
        self.at = self.at.moved(dir, steps);
    }

    pub fn finish(mut self) -> Wire {
        self.corners.push(self.at);
        Wire { corners: self.corners }
    }
}
