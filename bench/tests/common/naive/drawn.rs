//! Drawn wires by the plainest judge there is, for small boards. It reads the
//! pieces byte by byte, walks every run unit step by unit step, and holds every
//! node of it against every node of the laid wires.

use super::{edge_meets, lengths, open_steps, unit_edges, Naive, Node, Thing};

/// What must be printed for a piece file.
pub fn sheet(file: &[u8]) -> String {
    let mut board = Naive::default();
    let (mut lines, mut wires, mut pieces) = (String::new(), 0, 0);
    let mut left = file;
    while !left.is_empty() {
        if pieces == 65_535 {
            return lines + "cut\n";
        }
        pieces += 1;
        let length = match (left[0], left.get(1)) {
            (b'r', _) => 13,
            (b'w', Some(n)) => 2 + 2 * *n as usize,
            _ => return lines + "bad\n",
        };
        if left.len() < length {
            return lines + "bad\n";
        }
        if left[0] == b'r' {
            board.take(&left[1..13]);
        } else {
            wires += 1;
            let pairs = left[2..length].chunks(2);
            let numbers: Vec<i64> =
                pairs.map(|pair| pair[0] as i64 + 256 * pair[1] as i64).collect();
            lines += &format!("{wires} {}\n", board.judge(&numbers));
        }
        left = &left[length..];
    }
    lines + "end\n"
}

impl Naive {
    /// The code, and after it the excess or the run.
    fn judge(&self, numbers: &[i64]) -> String {
        let Some((w, h, _)) = self.bounds else { return "2".to_string() };
        if numbers.len() % 2 == 1 || numbers.len() < 4 || numbers.len() > 50 {
            return "22".to_string();
        }
        let corners: Vec<Node> = numbers.chunks(2).map(|pair| (pair[0], pair[1])).collect();
        let (s, t) = (corners[0], corners[corners.len() - 1]);
        if s == t {
            return "10".to_string();
        }
        for run in 1..corners.len() {
            if misshapen(&corners, run) {
                return format!("23 {run}");
            }
        }
        for run in 1..corners.len() {
            if let Some(code) = self.misplaced(corners[run - 1], corners[run]) {
                return format!("{code} {run}");
            }
        }
        let steps = open_steps((w, h), &self.blocks(), &self.covered(None));
        let shortest = lengths((w, h), &steps, t)[(s.1 * (w + 1) + s.0) as usize];
        let shortest = shortest.expect("the drawn wire is a way from s to t");
        format!("0 {}", unit_edges(&corners).count() - shortest)
    }

    /// What is wrong with the place of a straight run.
    fn misplaced(&self, p: Node, q: Node) -> Option<u8> {
        let (w, h, c) = self.bounds.unwrap();
        let off = |p: Node| p.0 > w || p.1 > h;
        if off(p) || off(q) {
            return Some(9);
        }
        for (_, thing) in &self.things {
            if let Thing::Keepout(low, high) = thing {
                if unit_edges(&[p, q]).any(|edge| edge_meets(edge, (*low, *high))) {
                    return Some(20);
                }
            }
        }
        let covered = self.covered(None);
        if unit_edges(&[p, q]).any(|edge| covered.shuts(edge)) {
            return Some(20);
        }
        for (_, thing) in &self.things {
            if let Thing::Wire(corners) = thing {
                for a in nodes(&[p, q]) {
                    for b in nodes(corners) {
                        if (a.0 - b.0).abs() < c && (a.1 - b.1).abs() < c {
                            return Some(24);
                        }
                    }
                }
            }
        }
        None
    }
}

/// Is the run empty or slanted, or along the axis of the run before it?
fn misshapen(corners: &[Node], run: usize) -> bool {
    let goes = |run: usize| {
        let (p, q) = (corners[run - 1], corners[run]);
        (p.0 != q.0, p.1 != q.1)
    };
    match goes(run) {
        (false, false) | (true, true) => true,
        straight => run > 1 && goes(run - 1) == straight,
    }
}

/// Every node of a wire.
pub fn nodes(corners: &[Node]) -> impl Iterator<Item = Node> + '_ {
    corners[..1].iter().copied().chain(unit_edges(corners).map(|(_, node)| node))
}
