//! The crowding sheet by the plainest reading of document 02's order 5, for small
//! boards: every whole number is asked if it is a side, and of every edge each unit
//! edge is held against every block and every covered cell.

use super::{edge_meets, unit_edges, Naive, Node};

/// What must be printed for a record file.
pub fn sheet(file: &[u8]) -> String {
    let mut board = Naive::default();
    for piece in file.chunks(12).take(65_535) {
        board.take(piece);
    }
    let last = if file.len() > 12 * 65_535 { "cut" } else { "end" };
    format!("{}{last}\n", board.crowding())
}

impl Naive {
    fn crowding(&self) -> String {
        let Some((w, h, _)) = self.bounds else { return "2\n".to_string() };
        let mut lines = String::new();
        let xs: Vec<i64> = (0..=w).filter(|x| self.is_track(*x, w, |p| p.0)).collect();
        let ys: Vec<i64> = (0..=h).filter(|y| self.is_track(*y, h, |p| p.1)).collect();
        for x in &xs {
            let ends: Vec<Node> = ys.iter().map(|y| (*x, *y)).collect();
            lines += &format!("x {x} {}\n", self.counts(&ends));
        }
        for y in &ys {
            let ends: Vec<Node> = xs.iter().map(|x| (*x, *y)).collect();
            lines += &format!("y {y} {}\n", self.counts(&ends));
        }
        lines
    }

    /// Is it a side of the board or of a block?
    fn is_track(&self, at: i64, last: i64, along: fn(&Node) -> i64) -> bool {
        let side = |(low, high): &(Node, Node)| along(low) == at || along(high) == at;
        at == 0 || at == last || self.blocks().iter().any(side)
    }

    /// The open edges between these nodes of a track, and how many are open before
    /// the first shut one.
    fn counts(&self, ends: &[Node]) -> String {
        let (blocks, covered) = (self.blocks(), self.covered(None));
        let (mut count, mut stretch, mut unbroken) = (0, 0, true);
        for edge in ends.windows(2) {
            let mut open = true;
            for unit in unit_edges(edge) {
                if covered.shuts(unit) || blocks.iter().any(|block| edge_meets(unit, *block)) {
                    open = false;
                }
            }
            unbroken = unbroken && open;
            count += u32::from(open);
            stretch += u32::from(unbroken);
        }
        format!("{count} {stretch}")
    }
}
