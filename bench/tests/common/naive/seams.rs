//! Seams by the plainest reading of document 02's order 3: every cell of every
//! keep-out is written down, and each edge and node looks at the cells next to it.

use super::{points, Naive, Node, Thing};

/// The cells of a board that lie in keep-outs.
pub struct Covered {
    size: Node,
    cells: Vec<bool>,
}

impl Covered {
    pub fn has(&self, cell: Node) -> bool {
        let (w, h) = self.size;
        let on_board = 0 <= cell.0 && cell.0 < w && 0 <= cell.1 && cell.1 < h;
        on_board && self.cells[(cell.1 * w + cell.0) as usize]
    }

    /// Do the cells on both sides of a unit edge lie in keep-outs?
    pub fn shuts(&self, (p, q): (Node, Node)) -> bool {
        let (x, y) = (p.0.min(q.0), p.1.min(q.1));
        let other = if p.1 == q.1 { (x, y - 1) } else { (x - 1, y) };
        self.has((x, y)) && self.has(other)
    }
}

/// The four cells round a node.
pub fn round((x, y): Node) -> [Node; 4] {
    [(x, y), (x - 1, y), (x, y - 1), (x - 1, y - 1)]
}

impl Naive {
    /// The cells of all keep-outs, and of one more if there is one.
    pub fn covered(&self, more: Option<(Node, Node)>) -> Covered {
        let (w, h, _) = self.bounds.unwrap();
        let mut cells = vec![false; (w * h) as usize];
        let mut areas: Vec<(Node, Node)> = more.into_iter().collect();
        for (_, thing) in &self.things {
            if let Thing::Keepout(low, high) = thing {
                areas.push((*low, *high));
            }
        }
        for (low, high) in areas {
            for (x, y) in points(low.0, low.1, high.0 - 1, high.1 - 1) {
                cells[(y * w + x) as usize] = true;
            }
        }
        Covered { size: (w, h), cells }
    }
}
