//! The search over every unit node: a breadth-first search from t, then a walk
//! from s that always takes the first step, in the order E, N, W, S, which
//! comes nearer to t. That walk is shortest, and no shortest walk is spelled
//! before it: at each node it takes the first letter any of them can have.
//! `straight` finds the wires of kinds 8 and 9.

mod astray;
mod straight;

use crate::cells::Cover;
use crate::geometry::{Dir, Point, Rect};
use crate::item::Frame;
use crate::wire::{Spelling, Wire};

/// A node that the search has not reached.
const UNSEEN: u32 = u32::MAX;

/// The bit of a node's open steps that stands for a direction.
fn bit(dir: Dir) -> u8 {
    1 << dir as u8
}

/// The board's nodes row by row, each with the steps that are open there.
#[derive(Default)]
pub struct UnitMap {
    w: i32,
    h: i32,
    open: Vec<u8>,
    /// Steps to t; all `UNSEEN` between searches.
    dist: Vec<u32>,
    /// The nodes reached, in the order of their distance.
    queue: Vec<u32>,
    /// What the straight search counts; nothing is listed between searches.
    runs: Vec<straight::Runs>,
}

impl UnitMap {
    /// Marks the open steps of a board with these blocks, of which some are the
    /// keep-outs that cover its cells.
    pub fn lay_out(&mut self, frame: &Frame, blocks: &[Rect], cover: &Cover) {
        let nodes = usize::try_from(frame.nodes()).expect("a board's nodes can be counted");
        (self.w, self.h) = (frame.w, frame.h);
        self.open.clear();
        self.open.resize(nodes, Dir::ORDER.into_iter().map(bit).sum());
        self.dist.resize(nodes, UNSEEN);
        for y in 0..=self.h {
            self.set(y, 0, 0, Dir::W, true);
            self.set(y, self.w, self.w, Dir::E, true);
        }
        self.set(0, 0, self.w, Dir::S, true);
        self.set(self.h, 0, self.w, Dir::N, true);
        for &block in blocks {
            self.mark(block, true);
        }
        let cells = Cells::under(frame, cover.keepouts());
        for &keepout in cover.keepouts() {
            self.close_seams(keepout, &cells);
        }
    }

    /// Blocks each unit edge that has a covered cell on both its sides: document
    /// 02's order 3, edge by edge. Such an edge lies in a keep-out or on its sides,
    /// so no others are looked at.
    fn close_seams(&mut self, keepout: Rect, cells: &Cells) {
        for y in keepout.y0..=keepout.y1 {
            for x in keepout.x0..=keepout.x1 {
                if cells.covered(x, y - 1) && cells.covered(x, y) {
                    self.set(y, x, x, Dir::E, true);
                    self.set(y, x + 1, x + 1, Dir::W, true);
                }
                if cells.covered(x - 1, y) && cells.covered(x, y) {
                    self.set(y, x, x, Dir::N, true);
                    self.set(y + 1, x, x, Dir::S, true);
                }
            }
        }
    }

    /// Blocks (or, for a planted fault, opens) the unit edges whose open part
    /// meets the block's interior: edges along x on rows strictly inside it,
    /// edges along y on columns strictly inside it. An edge begins and ends
    /// within the block's closed span, so a block one unit wide blocks the
    /// edges across it although no node lies in it.
    pub fn mark(&mut self, block: Rect, blocked: bool) {
        let (x0, x1) = (block.x0.max(0), block.x1.min(self.w));
        let (y0, y1) = (block.y0.max(0), block.y1.min(self.h));
        for y in (block.y0 + 1).max(0)..=(block.y1 - 1).min(self.h) {
            self.set(y, x0, x1 - 1, Dir::E, blocked);
            self.set(y, x0 + 1, x1, Dir::W, blocked);
        }
        let (left, right) = ((block.x0 + 1).max(0), (block.x1 - 1).min(self.w));
        for y in y0..y1 {
            self.set(y, left, right, Dir::N, blocked);
            self.set(y + 1, left, right, Dir::S, blocked);
        }
    }

    /// Blocks or opens one direction at the nodes x0..=x1 of a row.
    fn set(&mut self, y: i32, x0: i32, x1: i32, dir: Dir, blocked: bool) {
        if x0 > x1 {
            return;
        }
        let (from, to) = (self.index(Point::new(x0, y)), self.index(Point::new(x1, y)));
        for steps in &mut self.open[from..=to] {
            if blocked {
                *steps &= !bit(dir);
            } else {
                *steps |= bit(dir);
            }
        }
    }

    /// Is every unit edge of a segment on the board open?
    pub fn open_along(&self, segment: Rect) -> bool {
        let Rect { x0, y0, x1, y1 } = segment;
        let open = |x, y, dir| self.open[self.index(Point::new(x, y))] & bit(dir) != 0;
        if y0 == y1 {
            (x0..x1).all(|x| open(x, y0, Dir::E))
        } else {
            (y0..y1).all(|y| open(x0, y, Dir::N))
        }
    }

    /// The answered wire between two different nodes, if there is one.
    pub fn shortest(&mut self, s: Point, t: Point) -> Option<Wire> {
        let wire = self.spread(t, s).then(|| self.trace(s, t));
        self.clear();
        wire
    }

    fn clear(&mut self) {
        for node in self.queue.drain(..) {
            self.dist[node as usize] = UNSEEN;
        }
    }

    /// Spreads from t until s is reached; then every node nearer to t than s
    /// has its distance. False if s cannot be reached.
    fn spread(&mut self, t: Point, s: Point) -> bool {
        let (start, goal) = (self.index(t), self.index(s));
        let offsets = self.offsets();
        self.dist[start] = 0;
        self.queue.push(start as u32);
        let mut head = 0;
        while let Some(&node) = self.queue.get(head) {
            let node = node as usize;
            head += 1;
            let (steps, dist) = (self.open[node], self.dist[node] + 1);
            for (dir, offset) in offsets {
                let next = node.wrapping_add_signed(offset);
                if steps & bit(dir) != 0 && self.dist[next] == UNSEEN {
                    self.dist[next] = dist;
                    self.queue.push(next as u32);
                    if next == goal {
                        return true;
                    }
                }
            }
        }
        false
    }

    fn trace(&self, s: Point, t: Point) -> Wire {
        let offsets = self.offsets();
        let mut wire = Spelling::from(s);
        let mut node = self.index(s);
        while wire.at() != t {
            let nearer = self.dist[node] - 1;
            let (dir, offset) = offsets
                .into_iter()
                .find(|&(dir, offset)| {
                    self.open[node] & bit(dir) != 0
                        && self.dist[node.wrapping_add_signed(offset)] == nearer
                })
                .expect("a node reached by the search has a nearer neighbour");
            node = node.wrapping_add_signed(offset);
            wire.go(dir, 1);
        }
        wire.finish()
    }

    fn index(&self, p: Point) -> usize {
        p.y as usize * (self.w as usize + 1) + p.x as usize
    }

    /// Each direction with the distance between two neighbours' indexes.
    fn offsets(&self) -> [(Dir, isize); 4] {
        Dir::ORDER.map(|dir| {
            let (dx, dy) = dir.delta();
            (dir, (dy as isize) * (self.w as isize + 1) + dx as isize)
        })
    }
}

/// Which cells of a board lie in keep-outs, row by row, with a rim of cells off
/// the board round them, which lie in none.
struct Cells {
    row: usize,
    covered: Vec<bool>,
}

impl Cells {
    fn under(frame: &Frame, keepouts: &[Rect]) -> Cells {
        let (row, rows) = (frame.w as usize + 2, frame.h as usize + 2);
        let mut cells = Cells { row, covered: vec![false; row * rows] };
        for keepout in keepouts {
            for y in keepout.y0..keepout.y1 {
                let (from, to) = (cells.index(keepout.x0, y), cells.index(keepout.x1, y));
                cells.covered[from..to].fill(true);
            }
        }
        cells
    }

    /// Does the cell with this lower left corner lie in a keep-out?
    fn covered(&self, x: i32, y: i32) -> bool {
        self.covered[self.index(x, y)]
    }

    fn index(&self, x: i32, y: i32) -> usize {
        (y + 1) as usize * self.row + (x + 1) as usize
    }
}
