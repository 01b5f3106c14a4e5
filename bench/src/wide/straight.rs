//! Of the shortest wires one with the fewest runs, over the rooms: document 02's
//! order 6. Why this is exact on the whole unit grid:
//!
//! * Fields. Let a site of s at p and a site of t at q, in one room, be tight: from
//!   s to p, straight to q and on to t is as long as the shortest wire. Then every
//!   walk from p to q that goes towards q at each step, inside the rectangle that
//!   they span, is part of a shortest wire. The other way round, take a step of a
//!   shortest wire. It lies in a room, in which some site of s gives the distance
//!   of its first node from s, and some site of t that of its second node from t.
//!   These two are tight, and the step goes towards q inside their rectangle. So
//!   the steps of all shortest wires are exactly those of the fields, the
//!   rectangles of tight pairs, each with its way from p to q.
//! * Areas. An area of an axis, with a number of turns, is a rectangle of nodes
//!   from which a wire that goes along that axis reaches t with no more turns than
//!   that. t itself is one. If an area meets a field that goes along the axis, so
//!   is what lies behind their meeting, back to the field's side at p. And what an
//!   area of one axis is with k turns, it is for the other axis with k + 1, as one
//!   may turn there. Grown until nothing is new, first all with 0 turns, then with
//!   1 and so on, they hold every node of a shortest wire with its fewest turns: a
//!   wire read backwards from t is one such step after the other.
//! * Order of wires. The trace takes at each node the first step, in the order E,
//!   N, W, S, from which t can still be reached with the turns that are left.
//!
//! Areas are full rectangles, and a wire may turn anywhere in them. No lines are
//! singled out.

use super::{Site, WideMap};
use crate::fault::Fault;
use crate::geometry::{Axis, Dir, Point, Rect};
use crate::record::Pins;
use crate::wire::{Spelling, Wire};

/// Where shortest wires go from `from` to `to`, by any steps towards `to`.
#[derive(Clone, Copy, PartialEq, Eq)]
struct Field {
    from: Point,
    to: Point,
}

/// A rectangle from which t is reached, along an axis, with so many turns.
struct Area {
    rect: Rect,
    turns: usize,
}

/// The areas of both axes, grown from t up to s.
struct Growth {
    fields: Vec<Field>,
    along_x: Vec<Area>,
    along_y: Vec<Area>,
    /// Where a field or an area begins or ends, rising.
    xs: Vec<i32>,
    ys: Vec<i32>,
}

impl WideMap {
    /// The first of the shortest wires with the fewest runs, if there is a wire. A fault
    /// that is planted in the rooms may lead astray, and then there is none.
    pub fn straightest(&mut self, s: Point, t: Point, fault: Fault) -> Option<Wire> {
        let length = self.spread(s, t)?;
        let of_s: Vec<Vec<Site>> =
            self.rooms.iter_mut().map(|room| std::mem::take(&mut room.sites)).collect();
        self.spread(t, s)?;
        let mut growth = Growth::over(self.fields(&of_s, length));
        let turns = growth.grow(t, s)?;
        growth.mark();
        growth.trace(Pins { s, t }, turns, length, fault.steps())
    }

    /// The fields, without those that lie in another one.
    fn fields(&self, of_s: &[Vec<Site>], length: u32) -> Vec<Field> {
        let mut fields: Vec<Field> = Vec::new();
        for (room, of_s) in self.rooms.iter().zip(of_s) {
            for (p, q) in of_s.iter().flat_map(|p| room.sites.iter().map(move |q| (p, q))) {
                let field = Field { from: p.at, to: q.at };
                let tight = p.dist + p.at.steps_to(q.at) + q.dist == length;
                if tight && p.at != q.at && !fields.iter().any(|other| other.covers(&field)) {
                    fields.retain(|other| !field.covers(other));
                    fields.push(field);
                }
            }
        }
        fields
    }
}

impl Field {
    fn rect(&self) -> Rect {
        Rect::spanned(self.from, self.to)
    }

    /// Does a step in that direction go towards `to`?
    fn goes(&self, dir: Dir) -> bool {
        match dir {
            Dir::E => self.from.x < self.to.x,
            Dir::N => self.from.y < self.to.y,
            Dir::W => self.from.x > self.to.x,
            Dir::S => self.from.y > self.to.y,
        }
    }

    /// Are the steps of another field all steps of this one?
    fn covers(&self, other: &Field) -> bool {
        let along = |dir: &Dir| self.goes(*dir) || !other.goes(*dir);
        self.rect().covers(other.rect()) && Dir::ORDER.iter().all(along)
    }

    /// Is the step from a node one of this field's?
    fn leads(&self, at: Point, dir: Dir) -> bool {
        self.goes(dir) && self.rect().holds(at) && self.rect().holds(at.moved(dir, 1))
    }

    /// The nodes from which this field leads along an axis to a node of an area, with
    /// the nodes where it gets there.
    fn behind(&self, area: Rect, axis: Axis) -> Option<Rect> {
        if !self.rect().touches(area) {
            return None;
        }
        let Rect { x0, y0, x1, y1 } = self.rect().common(area);
        let Point { x, y } = self.from;
        match axis {
            Axis::X if self.goes(Dir::E) => Some(Rect::new(x, y0, x1, y1)),
            Axis::X if self.goes(Dir::W) => Some(Rect::new(x0, y0, x, y1)),
            Axis::Y if self.goes(Dir::N) => Some(Rect::new(x0, y, x1, y1)),
            Axis::Y if self.goes(Dir::S) => Some(Rect::new(x0, y0, x1, y)),
            _ => None,
        }
    }
}

impl Growth {
    fn over(fields: Vec<Field>) -> Growth {
        let (along_x, along_y) = (Vec::new(), Vec::new());
        Growth { fields, along_x, along_y, xs: Vec::new(), ys: Vec::new() }
    }

    fn along(&self, axis: Axis) -> &[Area] {
        match axis {
            Axis::X => &self.along_x,
            Axis::Y => &self.along_y,
        }
    }

    /// Grows areas from t, one turn more each time, until one of them holds s; gives
    /// the turns that took.
    fn grow(&mut self, t: Point, s: Point) -> Option<usize> {
        let mut of_y = vec![Rect::spanned(t, t)];
        let mut of_x = of_y.clone();
        let mut turns = 0;
        while !(of_x.is_empty() && of_y.is_empty()) {
            // An area of one axis is one of the other with a turn more.
            (of_x, of_y) = (self.extend(Axis::X, of_y, turns), self.extend(Axis::Y, of_x, turns));
            if of_x.iter().chain(&of_y).any(|rect| rect.holds(s)) {
                return Some(turns);
            }
            turns += 1;
        }
        None
    }

    /// Extends areas along an axis, from field to field; gives those that are new.
    fn extend(&mut self, axis: Axis, mut from: Vec<Rect>, turns: usize) -> Vec<Rect> {
        let mut new = Vec::new();
        while let Some(area) = from.pop() {
            for index in 0..self.fields.len() {
                let Some(rect) = self.fields[index].behind(area, axis) else { continue };
                if !self.along(axis).iter().any(|known| known.rect.covers(rect)) {
                    match axis {
                        Axis::X => self.along_x.push(Area { rect, turns }),
                        Axis::Y => self.along_y.push(Area { rect, turns }),
                    }
                    new.push(rect);
                    from.push(rect);
                }
            }
        }
        new
    }

    fn mark(&mut self) {
        let areas = self.along_x.iter().chain(&self.along_y).map(|area| area.rect);
        let rects: Vec<Rect> = areas.chain(self.fields.iter().map(Field::rect)).collect();
        self.xs = rising(rects.iter().flat_map(|rect| [rect.x0, rect.x1]).collect());
        self.ys = rising(rects.iter().flat_map(|rect| [rect.y0, rect.y1]).collect());
    }

    /// Spells the wire, which has that length and so at most as many strides.
    fn trace(&self, pins: Pins, turns: usize, length: u32, order: [Dir; 4]) -> Option<Wire> {
        let mut wire = Spelling::from(pins.s);
        let (mut heading, mut left) = (None, turns);
        for _ in 0..=length {
            let at = wire.at();
            if at == pins.t {
                return Some(wire.finish());
            }
            let (dir, left_then) = order.into_iter().find_map(|dir| {
                let left = turns_after(heading, dir, left)?;
                self.reaches(at, dir, left).then_some((dir, left))
            })?;
            wire.go(dir, self.stride(at, dir));
            (heading, left) = (Some(dir), left_then);
        }
        None
    }

    /// Is a step one of a shortest wire from whose end t is reached with so many turns
    /// at most?
    fn reaches(&self, at: Point, dir: Dir, turns: usize) -> bool {
        let next = at.moved(dir, 1);
        let known = |area: &Area| area.turns <= turns && area.rect.holds(next);
        self.fields.iter().any(|field| field.leads(at, dir))
            && self.along(dir.axis()).iter().any(known)
    }

    /// How many times the step just chosen is taken before looking again: once from a
    /// marked coordinate, else up to the next mark. Before that mark the node stays in
    /// the same fields and areas, and the node ahead in all of them too, so the step
    /// stays possible. A step that was refused stays so, as no more turns are left.
    fn stride(&self, at: Point, dir: Dir) -> i32 {
        let (marks, here) = match dir.axis() {
            Axis::X => (&self.xs, at.x),
            Axis::Y => (&self.ys, at.y),
        };
        let above = marks.partition_point(|&mark| mark < here);
        if marks[above] == here {
            return 1;
        }
        let ahead = matches!(dir, Dir::E | Dir::N);
        here.abs_diff(if ahead { marks[above] } else { marks[above - 1] }) as i32
    }
}

/// The turns that are left after a step, if it can be taken with those left before.
fn turns_after(heading: Option<Dir>, dir: Dir, left: usize) -> Option<usize> {
    match heading {
        Some(heading) if heading != dir => left.checked_sub(1),
        _ => Some(left),
    }
}

fn rising(mut marks: Vec<i32>) -> Vec<i32> {
    marks.sort_unstable();
    marks.dedup();
    marks
}
