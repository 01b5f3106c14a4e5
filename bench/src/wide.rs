//! The search for boards with too many nodes to visit: over free rooms.
//!
//! It uses no lines to route along. The free part of the board is cut into
//! closed rectangles, the rooms, and the search asks how far from t each room
//! is entered. Why this is exact on the whole unit grid:
//!
//! * Rooms. Cut the board at every row on which a block begins or ends. On such
//!   a row, and likewise everywhere in the open slab between two of them, the
//!   same blocks stand in the way. They forbid open intervals of x, and what
//!   is left is a list of closed intervals (a single x where two blocks abut).
//!   An interval times its row or closed slab is a room. A block in the way on
//!   a row is in the way in the slabs beside it too, so the rims of a slab's
//!   room are free, and that room lies against exactly one room of the row
//!   below and one of the row above. Those pairs are the doors.
//! * Seams. Whether a cell is covered is the same for all cells between two
//!   neighbouring cuts in x and in y, so one cell on either side tells whether
//!   an edge from cut to cut is closed. Closed edges of a row forbid open
//!   intervals as blocks do; they have keep-outs above and below, so they too
//!   are in the way in the slabs beside the row. In a slab only a room without
//!   width can lie between covered cells, and it goes if it does.
//! * Walks. An unblocked unit edge lies in one room: an edge along x in the
//!   room of its row or slab, an edge along y in a slab's room. Where a walk
//!   changes rooms it does so through doors, at one node. Inside a room every
//!   edge is open, so two of its nodes are as far apart as on an empty board.
//! * Gates. A door is a whole interval. From a point p of one room, the point
//!   q of the door nearest to p lies on a shortest way from p to every point
//!   behind the door, since |dx| is split by clamping x and dy is the same for
//!   all. So it is enough to enter the next room at q.
//! * Sites. A site (p, d) of a room says: p is d steps from t. By the above,
//!   if the sites are spread through the doors in the order of d, as in
//!   Dijkstra's search, then d(v) = min over the sites of a room of
//!   d + |v - p| holds for every node v of that room, not only for corners. A
//!   new site that an older one of the same room already accounts for adds
//!   nothing anywhere and is dropped.
//! * Order of wires. The trace asks d of the neighbours of the node where it
//!   stands, E first, then N, W, S, as the unit search does. How it may take
//!   many equal steps at once is said at `stride`.
//!
//! `straight` finds the wires of kinds 8 and 9, by the same rooms and sites.

mod straight;

use std::cmp::Reverse;
use std::collections::BinaryHeap;
use std::ops::Range;

use crate::cells::Cover;
use crate::fault::Fault;
use crate::geometry::{Dir, Point, Rect};
use crate::item::Frame;
use crate::wire::{Spelling, Wire};

/// A point where a shortest way enters a room, and its distance from t.
struct Site {
    at: Point,
    dist: u32,
}

/// A free closed rectangle, with the rooms behind its doors.
struct Room {
    rect: Rect,
    doors: Vec<usize>,
    sites: Vec<Site>,
}

impl Room {
    /// Steps from t to a node of this room, by the sites known so far.
    fn dist(&self, p: Point) -> u32 {
        self.sites.iter().map(|site| site.dist + site.at.steps_to(p)).min().unwrap_or(u32::MAX)
    }
}

/// The rooms of a board.
#[derive(Default)]
pub struct WideMap {
    /// Where the board is cut, and the x at which a room may begin or end;
    /// both rising, from the board's one side to the other.
    ys: Vec<i32>,
    xs: Vec<i32>,
    /// Rows and slabs from below, in turn: row `ys[0]`, the slab above it, row
    /// `ys[1]`, ... Each names its rooms, from left to right.
    bands: Vec<Range<usize>>,
    rooms: Vec<Room>,
}

impl WideMap {
    /// Cuts the free part of a board with these blocks into rooms; some of the
    /// blocks are the keep-outs that cover its cells.
    pub fn lay_out(&mut self, frame: &Frame, blocks: &[Rect], cover: &Cover, fault: Fault) {
        let cutting = fault.cutting(blocks);
        self.ys = cuts(frame.h, cutting.iter().flat_map(|block| [block.y0, block.y1]));
        self.xs = cuts(frame.w, blocks.iter().flat_map(|block| [block.x0, block.x1]));
        self.bands.clear();
        self.rooms.clear();
        for i in 0..self.ys.len() {
            let y = self.ys[i];
            self.add_row(frame, blocks, cover, y);
            if let Some(&above) = self.ys.get(i + 1) {
                self.add_slab(frame, blocks, cover, y, above);
            }
        }
        for slab in (1..self.bands.len()).step_by(2) {
            self.add_doors(slab, slab - 1);
            self.add_doors(slab, slab + 1);
        }
    }

    /// Adds the rooms of a row: what neither blocks nor closed edges forbid.
    fn add_row(&mut self, frame: &Frame, blocks: &[Rect], cover: &Cover, y: i32) {
        let mut spans = in_the_way(blocks, y, y);
        // Only keep-outs that touch the row have cells beside it.
        let near = cover.keepouts().iter().filter(|keepout| keepout.y0 <= y && y <= keepout.y1);
        let near = Cover::new(frame, near.copied());
        let edges = self.xs.windows(2).map(|ends| (ends[0], ends[1]));
        spans.extend(edges.filter(|&(x, _)| near.closes_east(Point::new(x, y))));
        spans.sort_unstable();
        self.add_band(y, y, gaps(frame.w, &spans));
    }

    /// Adds the rooms of the slab between two rows.
    fn add_slab(&mut self, frame: &Frame, blocks: &[Rect], cover: &Cover, y0: i32, y1: i32) {
        let mut spans = in_the_way(blocks, y0, y1);
        spans.sort_unstable();
        let mut free = gaps(frame.w, &spans);
        free.retain(|&(x0, x1)| x0 < x1 || !cover.closes_north(Point::new(x0, y0)));
        self.add_band(y0, y1, free);
    }

    /// Adds a room for each interval of x.
    fn add_band(&mut self, y0: i32, y1: i32, free: Vec<(i32, i32)>) {
        let first = self.rooms.len();
        self.rooms.extend(free.into_iter().map(|(x0, x1)| Room {
            rect: Rect::new(x0, y0, x1, y1),
            doors: Vec::new(),
            sites: Vec::new(),
        }));
        self.bands.push(first..self.rooms.len());
    }

    /// Joins each room of a slab with the room of a row that it lies against.
    fn add_doors(&mut self, slab: usize, row: usize) {
        for inner in self.bands[slab].clone() {
            let x = self.rooms[inner].rect.x0;
            if let Some(outer) = self.room_over(row, x) {
                self.rooms[inner].doors.push(outer);
                self.rooms[outer].doors.push(inner);
            }
        }
    }

    /// The room of a band that reaches over x.
    fn room_over(&self, band: usize, x: i32) -> Option<usize> {
        let rooms = self.bands[band].clone();
        let before = self.rooms[rooms.clone()].partition_point(|room| room.rect.x1 < x);
        let room = rooms.start + before;
        (room < rooms.end && self.rooms[room].rect.x0 <= x).then_some(room)
    }

    /// The rooms that hold a node: one inside a slab, up to three on a row.
    fn rooms_at(&self, p: Point) -> impl Iterator<Item = usize> + '_ {
        let row = self.ys.partition_point(|&y| y < p.y);
        let bands = if self.ys[row] == p.y {
            (2 * row).saturating_sub(1)..(2 * row + 2).min(self.bands.len())
        } else {
            2 * row - 1..2 * row
        };
        bands.filter_map(move |band| self.room_over(band, p.x))
    }

    /// The rooms that doors lead to from a node, its own among them.
    pub fn reached(&self, from: Point) -> Vec<Rect> {
        let mut seen = vec![false; self.rooms.len()];
        let mut next: Vec<usize> = self.rooms_at(from).collect();
        let mut reached = Vec::new();
        while let Some(room) = next.pop() {
            if !std::mem::replace(&mut seen[room], true) {
                reached.push(self.rooms[room].rect);
                next.extend(&self.rooms[room].doors);
            }
        }
        reached
    }

    /// The answered wire between two different nodes, if there is one.
    pub fn shortest(&mut self, s: Point, t: Point) -> Option<Wire> {
        let dist = self.spread(t, s)?;
        Some(self.trace(s, t, dist))
    }

    /// Spreads sites from t until every site nearer to t than s is known, and
    /// gives the distance of s. The trace asks about no others.
    fn spread(&mut self, t: Point, s: Point) -> Option<u32> {
        self.rooms.iter_mut().for_each(|room| room.sites.clear());
        let mut next: BinaryHeap<Reverse<(u32, usize, Point)>> =
            self.rooms_at(t).map(|room| Reverse((0, room, t))).collect();
        let mut best = u32::MAX;
        while let Some(Reverse((dist, room, at))) = next.pop() {
            if dist >= best {
                break;
            }
            if self.rooms[room].dist(at) <= dist {
                continue;
            }
            self.rooms[room].sites.push(Site { at, dist });
            if self.rooms[room].rect.holds(s) {
                best = best.min(dist + at.steps_to(s));
            }
            next.extend(self.entered_from(room, at, dist).map(Reverse));
        }
        (best < u32::MAX).then_some(best)
    }

    /// The sites that a site of one room gives to the rooms behind its doors.
    fn entered_from(
        &self,
        room: usize,
        at: Point,
        dist: u32,
    ) -> impl Iterator<Item = (u32, usize, Point)> + '_ {
        let from = &self.rooms[room];
        from.doors.iter().filter_map(move |&behind| {
            let to = &self.rooms[behind];
            let gate = from.rect.common(to.rect).nearest(at);
            let there = dist + at.steps_to(gate);
            (there < to.dist(gate)).then_some((there, behind, gate))
        })
    }

    fn trace(&self, s: Point, t: Point, dist: u32) -> Wire {
        let mut wire = Spelling::from(s);
        let mut left = dist;
        while wire.at() != t {
            let at = wire.at();
            let dir = self.step(at, left).expect("a node the search reached has a nearer one");
            let steps = self.stride(at, t, dir);
            wire.go(dir, steps);
            left -= steps as u32;
        }
        wire.finish()
    }

    /// The first open step that comes nearer to t from a node `left` away. A
    /// step is open exactly if both its ends lie in one room.
    fn step(&self, at: Point, left: u32) -> Option<Dir> {
        let rooms: Vec<&Room> = self.rooms_at(at).map(|room| &self.rooms[room]).collect();
        Dir::ORDER.into_iter().find(|&dir| {
            let next = at.moved(dir, 1);
            rooms.iter().any(|room| room.rect.holds(next) && room.dist(next) == left - 1)
        })
    }

    /// How many times the step just chosen is taken before looking again.
    ///
    /// Call a coordinate marked if a room begins or ends there or a site lies
    /// there: the cuts, and t itself. From a marked coordinate it is one step.
    /// From one that is not, it is all the steps up to the next mark:
    ///
    /// * Before that mark the node stays in the same rooms.
    /// * In a room, call a site tight if it gives the node its distance. A step
    ///   within the room comes nearer exactly if it goes towards a tight site.
    /// * A step nearer makes no site tight that was not, so no direction that
    ///   was refused becomes possible.
    /// * It keeps the tight sites ahead tight until their coordinate is
    ///   reached, which is marked, so the same step stays possible.
    fn stride(&self, at: Point, t: Point, dir: Dir) -> i32 {
        let (cuts, here, end) = match dir {
            Dir::E | Dir::W => (&self.xs, at.x, t.x),
            Dir::N | Dir::S => (&self.ys, at.y, t.y),
        };
        let above = cuts.partition_point(|&cut| cut < here);
        if cuts[above] == here || end == here {
            return 1;
        }
        let next = if matches!(dir, Dir::E | Dir::N) { cuts[above] } else { cuts[above - 1] };
        // The mark at t comes first if it lies between.
        if (end > here) == (next > here) {
            here.abs_diff(next).min(here.abs_diff(end)) as i32
        } else {
            here.abs_diff(next) as i32
        }
    }
}

/// The given coordinates that lie on the board, with both its sides, rising.
fn cuts(last: i32, sides: impl Iterator<Item = i32>) -> Vec<i32> {
    let mut cuts: Vec<i32> = sides.filter(|&side| 0 < side && side < last).collect();
    cuts.extend([0, last]);
    cuts.sort_unstable();
    cuts.dedup();
    cuts
}

/// The open spans of x that blocks forbid on the row y0 = y1, or in the slab
/// between two rows.
fn in_the_way(blocks: &[Rect], y0: i32, y1: i32) -> Vec<(i32, i32)> {
    let there = blocks.iter().filter(|block| block.y0 < y1 && y0 < block.y1);
    there.map(|block| (block.x0, block.x1)).collect()
}

/// What the open spans, sorted by their beginnings, leave of 0..=last. Spans
/// that merely touch leave the point between them.
fn gaps(last: i32, spans: &[(i32, i32)]) -> Vec<(i32, i32)> {
    let mut free = Vec::new();
    let mut from = 0;
    for &(begin, end) in spans {
        let end_of_gap = begin.min(last);
        if from <= end_of_gap {
            free.push((from, end_of_gap));
        }
        from = from.max(end);
    }
    if from <= last {
        free.push((from, last));
    }
    free
}
