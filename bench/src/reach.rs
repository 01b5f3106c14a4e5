//! How far a wire could get: for a pair of pins that no wire joins.

use crate::cells::Cover;
use crate::fault::Fault;
use crate::geometry::{Point, Rect};
use crate::item::{Frame, Item};
use crate::wide::WideMap;

/// The nodes that legal wires from s lead to, as closed rectangles; they may share
/// sides. None if s is blocked or off the board.
pub struct Reach {
    pub rects: Vec<Rect>,
}

impl Reach {
    pub fn of<'a>(frame: &Frame, items: impl Iterator<Item = &'a Item> + Clone, s: Point) -> Reach {
        if !frame.holds(s) {
            return Reach { rects: Vec::new() };
        }
        let cover = Cover::of(frame, items.clone(), Fault::None);
        let blocks: Vec<Rect> = items.flat_map(|item| item.blocks(frame, Fault::None)).collect();
        let mut map = WideMap::default();
        map.lay_out(frame, &blocks, &cover, Fault::None);
        Reach { rects: outermost(map.reached(s)) }
    }

    pub fn holds(&self, p: Point) -> bool {
        self.rects.iter().any(|rect| rect.holds(p))
    }

    /// The reached node nearest to t; of equally near ones the first by x, then y.
    pub fn nearest(&self, t: Point) -> Option<Point> {
        let nearest = self.rects.iter().map(|rect| rect.nearest(t));
        nearest.min_by_key(|p| (p.steps_to(t), p.x, p.y))
    }
}

/// The rectangles that lie in none of the others, in a fixed order.
fn outermost(mut rects: Vec<Rect>) -> Vec<Rect> {
    rects.sort_unstable_by_key(|rect| (rect.x0, rect.y0, rect.x1, rect.y1));
    rects.dedup();
    let lies_in = |inner: &Rect, outer: &Rect| inner != outer && inner.common(*outer) == *inner;
    let all = rects.clone();
    rects.retain(|rect| !all.iter().any(|other| lies_in(rect, other)));
    rects
}
